// To be preloaded: `cpuid` answers as that of a processor without SSE4.2 and POPCNT. Where the kernel cannot do that, the program ends with 77.
#define _GNU_SOURCE
#include <cpuid.h>
#include <signal.h>
#include <sys/syscall.h>
#include <ucontext.h>
#include <unistd.h>

enum { SET_CPUID = 0x1012, BITS = bit_SSE4_2 | bit_POPCNT };

// Whether `cpuid` is answered by the processor, or else by a signal.
static long by_processor(int whether)
{
    return syscall(SYS_arch_prctl, SET_CPUID, whether);
}

static void answer(int number, siginfo_t *info, void *context)
{
    greg_t *registers = ((ucontext_t *)context)->uc_mcontext.gregs;
    const unsigned char *code = (const unsigned char *)registers[REG_RIP];
    unsigned leaf = registers[REG_RAX], a, b, c, d;
    (void)number, (void)info;
    if (code[0] != 0x0f || code[1] != 0xa2)
        _exit(78);
    by_processor(1);
    __cpuid_count(leaf, (unsigned)registers[REG_RCX], a, b, c, d);
    by_processor(0);
    registers[REG_RAX] = a;
    registers[REG_RBX] = b;
    registers[REG_RCX] = leaf == 1 ? c & ~BITS : c;
    registers[REG_RDX] = d;
    registers[REG_RIP] += 2;
}

__attribute__((constructor)) static void begin(void)
{
    struct sigaction action = {.sa_sigaction = answer, .sa_flags = SA_SIGINFO};
    if (sigaction(SIGSEGV, &action, 0) != 0 || by_processor(0) != 0)
        _exit(77);
}
