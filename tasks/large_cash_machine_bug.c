/* A cash machine: card, three tries for the code, amounts in tens, notes of 20 and 10, a journal that
   has to agree with what was paid out, and a card that is kept or given back. */
extern int __VERIFIER_nondet_int(void);
void reach_error(void) {}

enum state { IDLE, CARD, CODE, MENU, PAYING, EJECT, RETAINED };
enum state state = IDLE;
_Bool card_inside;
int tries;
int twenties = 5, tens = 5;
int account;
int paid, journal;
int cards_kept;

int start_money(void) { return 5 * 20 + 5 * 10; }

void insert_card(void)
{
    if (state != IDLE)
        return;
    card_inside = 1;
    tries = 0;
    account = 120;
    state = CODE;
}

void enter_code(int code)
{
    if (state != CODE)
        return;
    if (code == 1234) {
        state = MENU;
        return;
    }
    tries++;
    if (tries == 3) {
        card_inside = 0;
        if (cards_kept < 10)
            cards_kept++;
        state = RETAINED;
    }
}

_Bool pay(int amount)
{
    int large = amount / 20;
    if (large > twenties)
        large = twenties;
    int small = (amount - 20 * large) / 10;
    if (small > tens)
        return 0;
    twenties -= large;
    tens -= small;
    paid += 20 * large + 10 * small;
    return 1;
}

void choose(int amount)
{
    if (state != MENU)
        return;
    if (amount <= 0 || amount > 200)
        return;
    if (amount % 5 != 0)
        return;
    if (amount > account)
        return;
    if (pay(amount)) {
        account -= amount;
        journal += amount;
        state = EJECT;
    } else {
        state = EJECT;
    }
}

void cancel(void)
{
    if (state == CODE || state == MENU)
        state = EJECT;
}

void take_card(void)
{
    if (state == EJECT) {
        card_inside = 0;
        state = IDLE;
    }
}

void service(void)
{
    if (state == RETAINED)
        state = IDLE;
}

int main(void)
{
    int steps = 0;
    while (steps < 25) {
        int word = __VERIFIER_nondet_int();
        switch (word) {
        case 1: insert_card(); break;
        case 2: enter_code(__VERIFIER_nondet_int()); break;
        case 3: choose(__VERIFIER_nondet_int()); break;
        case 4: cancel(); break;
        case 5: take_card(); break;
        case 6: service(); break;
        default: continue;
        }
        steps++;
        if (paid != journal)
            reach_error();
        if (20 * twenties + 10 * tens + paid != start_money())
            reach_error();
        if (twenties < 0 || tens < 0 || account < 0)
            reach_error();
        if (card_inside && (state == IDLE || state == RETAINED))
            reach_error();
    }
    return 0;
}
