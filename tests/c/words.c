/* Prints the header's words for each refusal. */
#include <stdio.h>

#include <foamlattice.h>

int main(void) {
    for (unsigned number = 1; number <= FOAM_REFUSAL_TOO_MANY_NODES; number++)
        printf("%u %s\n", number, foam_refusal_text(number));
    return 0;
}
