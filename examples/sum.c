/* Sums two globals; examples/sum.log is the log of its run. The interface of the cut `top` is the function x. */
int a = 2;
int b = 3;

int main(void)
{
    return a + b;
}

[cut(top)] int x(void);
