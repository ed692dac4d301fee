/* A sample at a place that an input chooses: behind the write the place lies in the window, since
   an index outside of it ends the execution. */
extern int __VERIFIER_nondet_int(void);
extern void reach_error(void);

int window[4];

int main(void)
{
    int place = __VERIFIER_nondet_int();
    window[place] = 1;
    if (place < 0 || place > 3)
        reach_error();
    return 0;
}
