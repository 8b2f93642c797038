/* Counts the primes below a number, and rests behind each thousand: a host may keep it there, and go on with it elsewhere. */
__attribute__((import_module("env"), import_name("rest")))
void rest(int done);

static char area[1024] __attribute__((aligned(4)));   /* where the host keeps the stack */
__attribute__((export_name("area"))) void *area_at(void) { return area; }

static int is_prime(int n) {
    for (int d = 2; d * d <= n; d++)
        if (n % d == 0)
            return 0;
    return 1;
}

__attribute__((export_name("count")))
int count(int below) {
    int found = 0;
    for (int n = 2; n < below; n++) {
        found += is_prime(n);
        if (n % 1000 == 0)
            rest(n);
    }
    return found;
}
