/* The header's names alone, for mutants.sh. */
#include "checks.h"
#include "header.h"

int main(void)
{
    check_header();
    return checks_end() ? 0 : 1;
}
