/* Two threads add to `total` under mutex 0, which guards it. `add` is called where its callers hold that mutex. */
[guarded_by(0)] int total;

[holds(0)] void add(int n)
{
    total = total + n;
}

int work(void *p)
{
    r2_lock(0);
    add(1);
    r2_unlock(0);
    return 0;
}

int main(void)
{
    int a;
    int b;
    a = r2_spawn(work, 0);
    b = r2_spawn(work, 0);
    r2_join(a);
    r2_join(b);
    return 0;
}

[cut(top)] int x(void);
