/* A file system in small: a bitmap of eight blocks and three files with up to four blocks each. A block
   belongs to one file at most, and the bitmap says which are taken. */
extern char __VERIFIER_nondet_char(void);
extern int __VERIFIER_nondet_int(void);
void reach_error(void) {}

enum { BLOCKS = 8, FILES = 3, MOST = 4, NOTHING = 255 };

unsigned char bitmap;
unsigned char table[12];
unsigned char length[FILES];
unsigned char free_blocks = BLOCKS;

int find_free(void)
{
    for (int i = 0; i < BLOCKS; i++)
        if (!(bitmap >> i & 1))
            return i;
    return NOTHING;
}

int grow(int file)
{
    if (length[file] == MOST)
        return -27;
    int block = find_free();
    if (block == NOTHING)
        return -28;
    bitmap |= 1 << block;
    free_blocks--;
    table[file * MOST + length[file]] = (unsigned char) block;
    length[file]++;
    return block;
}

int shrink(int file)
{
    if (length[file] == 0)
        return -22;
    length[file]--;
    unsigned char block = table[file * MOST + length[file]];
    bitmap &= ~(1 << block);
    free_blocks++;
    return block;
}

void truncate(int file)
{
    while (length[file] > 0)
        shrink(file);
}

/* The blocks of one file go to another one that is empty. */
int move(int from, int to)
{
    if (from == to)
        return -22;
    if (length[to] != 0 && from != to)
        return -39;
    for (int i = 0; i < length[from]; i++)
        table[to * MOST + i] = table[from * MOST + i];
    length[to] = length[from];
    length[from] = 0;
    return 0;
}

void check(void)
{
    unsigned char seen = 0;
    int total = 0;
    for (int file = 0; file < FILES; file++) {
        for (int i = 0; i < length[file]; i++) {
            unsigned char block = table[file * MOST + i];
            if (seen >> block & 1)
                reach_error();
            seen |= 1 << block;
            total++;
        }
    }
    if (seen != bitmap)
        reach_error();
    if (total + free_blocks != BLOCKS)
        reach_error();
}

int main(void)
{
    int steps = 0;
    while (steps < 9) {
        int file = __VERIFIER_nondet_int();
        if (file < 0 || file >= FILES)
            continue;
        switch (__VERIFIER_nondet_char()) {
        case 'g':
            grow(file);
            break;
        case 's':
            shrink(file);
            break;
        case 't':
            truncate(file);
            break;
        case 'm':
            move(file, (file + 1) % FILES);
            break;
        case 'x':
            move(file, file);
            break;
        default:
            continue;
        }
        check();
        steps++;
    }
    return 0;
}
