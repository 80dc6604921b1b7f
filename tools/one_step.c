/* Runs single instructions on this processor. A line of input is the code in hexadecimal, then the 16 registers in the order of their numbers,
   EFLAGS, and words as address:value; the code stands at 0x401000, data in the page of 0x403000, and a page that is only read is at
   0x405000. A line of output says how the step ended and at which address it faulted, then the registers, rip, EFLAGS, and
   each word of the data page that has changed. `compare_steps.py` makes the lines. */
#define _GNU_SOURCE
#include <signal.h>
#include <stdint.h>
#include <stdio.h>
#include <stdlib.h>
#include <string.h>
#include <sys/mman.h>
#include <sys/ptrace.h>
#include <sys/user.h>
#include <sys/wait.h>
#include <unistd.h>

typedef uint64_t u64;

enum { CODE = 0x401000, DATA = 0x403000, LOADED = 0x405000, PAGE = 4096, WORDS = PAGE / 8, MOST = 64 };

static unsigned char code[MOST];
static u64 registers[16], eflags, places[MOST], words[MOST];
static int length, count;

static void read_line(char *p) {
  for (length = 0; *p != ' ' && length < MOST; p += 2) {
    unsigned byte;
    if (sscanf(p, "%2x", &byte) != 1) exit(2);
    code[length++] = byte;
  }
  for (int i = 0; i < 16; i++) registers[i] = strtoull(p, &p, 16);
  eflags = strtoull(p, &p, 16);
  for (count = 0; count < MOST; count++) {
    char *end;
    places[count] = strtoull(p, &end, 16);
    if (end == p || *end != ':') break;
    words[count] = strtoull(end + 1, &p, 16);
  }
}

static void page(u64 at) {
  int flags = MAP_PRIVATE | MAP_ANONYMOUS | MAP_FIXED_NOREPLACE;
  if (mmap((void *)at, PAGE, PROT_READ | PROT_WRITE, flags, -1, 0) != (void *)at) _exit(2);
}

/* the child: its pages as the line has them, and a stop */
static void stand(void) {
  page(CODE), page(DATA), page(LOADED);
  memcpy((void *)CODE, code, length);
  for (int i = 0; i < count; i++) memcpy((void *)places[i], &words[i], 8);
  mprotect((void *)CODE, PAGE, PROT_READ | PROT_EXEC);
  mprotect((void *)LOADED, PAGE, PROT_READ);
  ptrace(PTRACE_TRACEME, 0, 0, 0);
  raise(SIGSTOP);
  _exit(2);
}

static void data(pid_t child, u64 *into) {
  for (u64 i = 0; i < WORDS; i++) into[i] = ptrace(PTRACE_PEEKDATA, child, DATA + 8 * i, 0);
}

static void set_registers(pid_t child) {
  struct user_regs_struct u;
  ptrace(PTRACE_GETREGS, child, 0, &u);
  u64 *r = registers;
  u.rax = r[0], u.rcx = r[1], u.rdx = r[2], u.rbx = r[3], u.rsp = r[4], u.rbp = r[5], u.rsi = r[6], u.rdi = r[7];
  u.r8 = r[8], u.r9 = r[9], u.r10 = r[10], u.r11 = r[11], u.r12 = r[12], u.r13 = r[13], u.r14 = r[14], u.r15 = r[15];
  u.rip = CODE, u.eflags = eflags, u.orig_rax = -1;
  ptrace(PTRACE_SETREGS, child, 0, &u);
}

static const char *end_of(int signal, siginfo_t info) {
  switch (signal) {
    case SIGTRAP: return "next";
    case SIGSEGV: return info.si_code == SI_KERNEL ? "general" : "page";
    case SIGFPE: return "divide";
    case SIGILL: return "undefined";
    default: return "other";
  }
}

static void step(pid_t child) {
  static u64 before[WORDS], after[WORDS];
  int status;
  siginfo_t info;
  struct user_regs_struct u;
  waitpid(child, &status, 0);
  set_registers(child);
  data(child, before);
  ptrace(PTRACE_SINGLESTEP, child, 0, 0);
  waitpid(child, &status, 0);
  if (!WIFSTOPPED(status)) exit(2);
  ptrace(PTRACE_GETSIGINFO, child, 0, &info);
  ptrace(PTRACE_GETREGS, child, 0, &u);
  data(child, after);
  const char *end = end_of(WSTOPSIG(status), info);
  printf("%s %llx", end, strcmp(end, "page") ? 0 : (unsigned long long)info.si_addr);
  u64 r[] = {u.rax, u.rcx, u.rdx, u.rbx, u.rsp, u.rbp, u.rsi, u.rdi, u.r8,     u.r9,
             u.r10, u.r11, u.r12, u.r13, u.r14, u.r15, u.rip, u.eflags};
  for (unsigned i = 0; i < sizeof r / sizeof *r; i++) printf(" %llx", (unsigned long long)r[i]);
  for (u64 i = 0; i < WORDS; i++)
    if (after[i] != before[i]) printf(" %llx:%llx", (unsigned long long)(DATA + 8 * i), (unsigned long long)after[i]);
  printf("\n");
  fflush(stdout);
  kill(child, SIGKILL);
  waitpid(child, &status, 0);
}

int main(void) {
  static char line[1 << 14];
  while (fgets(line, sizeof line, stdin)) {
    read_line(line);
    pid_t child = fork();
    if (!child) stand();
    step(child);
  }
  return 0;
}
