/* `next` runs below the cut `seam`. It writes `count`, which `main` reads above; and `clock` is in no cut. */
[cut(seam)] int next(void);
int clock(void);

int count;

int next(void)
{
    count = count + 1;
    return count;
}

int main(void)
{
    next();
    return count + clock();
}
