/* A lexer that takes comments out of C: it counts characters of code, and never leaves its states. */
extern char __VERIFIER_nondet_char(void);
void reach_error(void) {}

enum state { CODE, SLASH, LINE, BLOCK, STAR, TEXT, ESCAPE };
enum state state = CODE;
int kept, dropped, read;

void next(char c)
{
    read++;
    switch (state) {
    case CODE:
        if (c == '/')
            state = SLASH;
        else {
            kept++;
            if (c == '"')
                state = TEXT;
        }
        break;
    case SLASH:
        if (c == '/') {
            dropped += 2;
            state = LINE;
        } else if (c == '*') {
            dropped += 2;
            state = BLOCK;
        } else {
            kept += 2;
            state = c == '"' ? TEXT : CODE;
        }
        break;
    case LINE:
        if (c == '\n') {
            kept++;
            state = CODE;
        } else {
            dropped++;
        }
        break;
    case BLOCK:
        dropped++;
        if (c == '*')
            state = STAR;
        break;
    case STAR:
        dropped++;
        if (c == '/')
            state = CODE;
        else if (c != '*')
            state = BLOCK;
        break;
    case TEXT:
        kept++;
        if (c == '\\')
            state = ESCAPE;
        else if (c == '"')
            state = CODE;
        break;
    case ESCAPE:
        kept++;
        state = TEXT; if (c == '/') state = SLASH;
        break;
    }
}

int main(void)
{
    while (read < 5) {
        next(__VERIFIER_nondet_char());
        int open = state == SLASH ? 1 : 0;
        if (kept + dropped + open != read)
            reach_error();
    }
    return 0;
}
