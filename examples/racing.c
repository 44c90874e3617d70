/* Two threads add to `total`, and nothing orders what they do. */
int total;

int work(void *p)
{
    total = total + 1;
    return 0;
}

int main(void)
{
    int a;
    int b;
    a = r2_spawn(work, 0);
    b = r2_spawn(work, 0);
    r2_join(a);
    r2_join(b);
    return 0;
}

[cut(top)] int x(void);
