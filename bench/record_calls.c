[cut(top)] int tick(int n);
int state;
long rounds = 200000;

int tick(int n)
{
    state = state * 5 + n;
    return state & 15;
}

int main(void)
{
    long i;
    int sum = 1;
    for (i = 0; i < rounds; i++)
        sum = sum + tick(sum);
    return sum & 127;
}
