/* Postfix words of a calculator with a stack of eight; what an operator needs is on the stack. */
extern _Bool __VERIFIER_nondet_bool(void);
extern int __VERIFIER_nondet_int(void);
void reach_error(void) {}

int stack[8];
int top;

_Bool push(int value)
{
    if (top >= 8)
        return 0;
    stack[top] = value;
    top++;
    return 1;
}

int pop(void)
{
    if (!(top > 0))
        reach_error();
    top--;
    return stack[top];
}

int main(void)
{
    while (__VERIFIER_nondet_bool()) {
        int word = __VERIFIER_nondet_int();
        if (word >= 0) {
            if (!push(word & 15))
                break;
        } else if (word == -1 && top >= 2) {
            int b = pop();
            int a = pop();
            push(a & b);
        } else if (word == -2 && top >= 1) {
            int a = pop();
            push(15 - a);
        }
        for (int i = 0; i < top; i++)
            if (stack[i] < 0 || stack[i] > 15)
                reach_error();
    }
    return 0;
}
