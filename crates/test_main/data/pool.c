# 1 "pool.c"
struct job { int id; long sum; };
[cut(sys)] int sock_recv(int s, [out, cap(len), bsize(return)] char *buf, int len);
[cut(sys), cache] int wall_clock(void);
[guarded_by(1)] struct job jobs[8];
[guarded_by(1)] int first;
[guarded_by(1)] int queued;
[guarded_by(2)] long total;
int started;

/* one line at a time */
void log_line(const char *s, unsigned long n)
{
    r2_lock(3);
    r2_print(s, n);
    r2_unlock(3);
}

long sum_bytes(const char *p, int n)
{
    long s = 0;
    int i;
    for (i = 0; i < n; i++)
        s += p[i];
    return s;
}

[holds(1)] void push(int id)
{
    jobs[queued].id = id;
    queued++;
}

int take(void)
{
    int i = -1;
    r2_lock(1);
    if (first < queued) {
        i = first;
        first++;
    }
    r2_unlock(1);
    return i;
}

int worker(void *arg)
{
    char buf[16];
    int i;
    int n;
    long s;
    int done = 0;
    while ((i = take()) >= 0) {
        n = sock_recv(i, buf, sizeof(buf));
        if (n <= 0)
            continue;
        s = sum_bytes(buf, n);
        r2_lock(1);
        jobs[i].sum = s;
        r2_unlock(1);
        r2_lock(2);
        total += s;
        r2_unlock(2);
        done++;
    }
    log_line("done\n", 5);
    return done;
}

void put_total(long v)
{
    char b[24];
    int n = 23;
    b[23] = '\n';
    do {
        n--;
        b[n] = (char)('0' + v % 10);
        v /= 10;
    } while (v > 0);
    r2_print("total ", 6);
    r2_print(b + n, 24 - n);
}

int main(void)
{
    int t[4];
    int i;
    long v;
    started = wall_clock();
    r2_lock(1);
    for (i = 0; i < 8; i++)
        push(i + 100);
    r2_unlock(1);
    for (i = 0; i < 4; i++)
        t[i] = r2_spawn(worker, 0);
    for (i = 0; i < 4; i++)
        r2_join(t[i]);
    r2_lock(2);
    v = total;
    r2_unlock(2);
    put_total(v);
    return wall_clock() - started;
}
