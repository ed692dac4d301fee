/* Client and server agree on the greatest version that both know; a downgrade by who stands in
   between is noticed. */
extern int __VERIFIER_nondet_int(void);
extern void abort(void);
void reach_error(void) {}

int client_most, server_most, agreed, offered;

int lesser(int a, int b) { return a < b ? a : b; }

int main(void)
{
    client_most = __VERIFIER_nondet_int();
    server_most = __VERIFIER_nondet_int();
    if (client_most < 1 || client_most > 4 || server_most < 1 || server_most > 4)
        abort();
    offered = client_most;
    int tampered = __VERIFIER_nondet_int();
    if (tampered >= 1 && tampered < offered)
        offered = tampered;
    agreed = lesser(offered, server_most);
    int signal = 0;
    if (server_most > agreed)
        signal = 1;
    if (signal && agreed + 1 < client_most)
        return 1;
    if (agreed != lesser(client_most, server_most))
        reach_error();
    return 0;
}
