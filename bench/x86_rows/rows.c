/* Runs single instructions of the x86-64 subset on the processor, for bench/x86_rows/rows.

   Standard input has a row a line: the instruction's bytes, the 16 registers, the flags, how many quadwords there are, and
   those. All are hexadecimal and separated by blanks. Flags are CF 1, ZF 2, SF 4 and OF 8. The quadwords lie at MEMORY, and
   register 4 (rsp) has to be STACK. A jump has to be by 16 bytes.

   Standard output has a line for each: 1 if it jumped, else 0; the 16 registers; the flags; the quadwords; and 1 if other
   memory changed, else 0. */
#define _GNU_SOURCE
#include <inttypes.h>
#include <stdint.h>
#include <stdio.h>
#include <stdlib.h>
#include <string.h>
#include <sys/mman.h>

enum { PAGE = 4096, AREA = 2 * PAGE, MOST = 64, LINE = 1 << 14 };
static const uintptr_t MEMORY = (uintptr_t)1 << 40, STACK = (uintptr_t)1 << 41;
static const int BITS[4] = { 0, 6, 7, 11 }; /* of CF, ZF, SF, OF in rflags */

/* 16 registers in the processor's order, and rflags: set before `enter`, and after it what the instruction made of them */
uint64_t rows_before[17], rows_after[17];
uint64_t rows_stack, rows_jumped;
void *rows_entry;
void rows_enter(void);
extern char rows_fell[], rows_taken[];

__asm__(".intel_syntax noprefix\n.text\nrows_enter:\n"
  " push rbx\n push rbp\n push r12\n push r13\n push r14\n push r15\n mov rows_stack[rip], rsp\n"
  " mov qword ptr rows_jumped[rip], 0\n push qword ptr rows_before[rip+128]\n popfq\n"
  " mov rax, rows_before[rip]\n mov rcx, rows_before[rip+8]\n mov rdx, rows_before[rip+16]\n mov rbx, rows_before[rip+24]\n"
  " mov rsp, rows_before[rip+32]\n mov rbp, rows_before[rip+40]\n mov rsi, rows_before[rip+48]\n mov rdi, rows_before[rip+56]\n"
  " mov r8, rows_before[rip+64]\n mov r9, rows_before[rip+72]\n mov r10, rows_before[rip+80]\n mov r11, rows_before[rip+88]\n"
  " mov r12, rows_before[rip+96]\n mov r13, rows_before[rip+104]\n mov r14, rows_before[rip+112]\n mov r15, rows_before[rip+120]\n"
  " jmp qword ptr rows_entry[rip]\n"
  ".globl rows_taken\nrows_taken: mov qword ptr rows_jumped[rip], 1\n.globl rows_fell\nrows_fell:\n"
  " mov rows_after[rip], rax\n mov rows_after[rip+8], rcx\n mov rows_after[rip+16], rdx\n mov rows_after[rip+24], rbx\n"
  " mov rows_after[rip+32], rsp\n mov rows_after[rip+40], rbp\n mov rows_after[rip+48], rsi\n mov rows_after[rip+56], rdi\n"
  " mov rows_after[rip+64], r8\n mov rows_after[rip+72], r9\n mov rows_after[rip+80], r10\n mov rows_after[rip+88], r11\n"
  " mov rows_after[rip+96], r12\n mov rows_after[rip+104], r13\n mov rows_after[rip+112], r14\n mov rows_after[rip+120], r15\n"
  " mov rsp, rows_stack[rip]\n pushfq\n pop qword ptr rows_after[rip+128]\n push 2\n popfq\n"
  " pop r15\n pop r14\n pop r13\n pop r12\n pop rbp\n pop rbx\n ret\n.att_syntax\n");

static void fail(const char *what) {
  perror(what);
  exit(2);
}

/* Maps an area with an address in its middle. */
static unsigned char *mapped(uintptr_t middle, int rights) {
  void *at = (void *)(middle ? middle - PAGE : 0);
  void *area = mmap(at, AREA, rights, MAP_PRIVATE | MAP_ANONYMOUS | (middle ? MAP_FIXED_NOREPLACE : 0), -1, 0);
  if (area == MAP_FAILED || (middle && area != at))
    fail("mmap");
  return area;
}

static uint64_t next_number(char **rest) {
  char *word = strtok_r(NULL, " \n", rest);
  if (!word)
    fail("a row is too short");
  return strtoull(word, NULL, 16);
}

/* Writes the instruction, and after it a jump to rows_fell; 16 bytes further a jump to rows_taken. */
static void put_code(unsigned char *code, const char *digits) {
  size_t length = strlen(digits) / 2;
  memset(code, 0xCC, MOST);
  for (size_t i = 0; i < length; i++) {
    unsigned byte = 0;
    if (sscanf(digits + 2 * i, "%2x", &byte) != 1)
      fail("a byte");
    code[i] = (unsigned char)byte;
  }
  for (int taken = 0; taken < 2; taken++) {
    unsigned char *jump = code + length + 16 * taken;
    uint64_t to = (uint64_t)(taken ? rows_taken : rows_fell);
    memcpy(jump, "\xFF\x25\0\0\0\0", 6);
    memcpy(jump + 6, &to, 8);
  }
}

/* Whether a byte of the areas changed, but those of the quadwords. */
static int other_changed(const unsigned char *memory, const unsigned char *stack, size_t quadwords) {
  for (size_t i = 0; i < AREA; i++)
    if ((i < PAGE || i >= PAGE + 8 * quadwords) && memory[i] != 0x77)
      return 1;
  for (size_t i = 0; i < AREA; i++)
    if ((i < PAGE || i >= PAGE + 8) && stack[i] != 0x55)
      return 1;
  return 0;
}

static void run_row(char *line, unsigned char *code, unsigned char *memory, unsigned char *stack) {
  char *rest = NULL, *digits = strtok_r(line, " \n", &rest);
  if (!digits)
    return;
  put_code(code, digits);
  for (int i = 0; i < 16; i++)
    rows_before[i] = next_number(&rest);
  uint64_t flags = next_number(&rest), count = next_number(&rest), *quadwords = (uint64_t *)(memory + PAGE);
  rows_before[16] = 2;
  for (int i = 0; i < 4; i++)
    rows_before[16] |= (flags >> i & 1) << BITS[i];
  memset(memory, 0x77, AREA);
  memset(stack, 0x55, AREA);
  if (count > MOST || rows_before[4] != STACK)
    fail("quadwords or rsp of a row");
  for (uint64_t i = 0; i < count; i++)
    quadwords[i] = next_number(&rest);
  *(uint64_t *)(stack + PAGE) = (uint64_t)rows_fell; /* where `ret` goes */
  rows_entry = code;
  rows_enter();
  printf("%" PRIx64, rows_jumped);
  for (int i = 0; i < 16; i++)
    printf(" %" PRIx64, rows_after[i]);
  int after = 0;
  for (int i = 0; i < 4; i++)
    after |= (int)(rows_after[16] >> BITS[i] & 1) << i;
  printf(" %x", after);
  for (uint64_t i = 0; i < count; i++)
    printf(" %" PRIx64, quadwords[i]);
  printf(" %d\n", other_changed(memory, stack, count));
}

int main(void) {
  static char line[LINE];
  unsigned char *code = mapped(0, PROT_READ | PROT_WRITE | PROT_EXEC);
  unsigned char *memory = mapped(MEMORY, PROT_READ | PROT_WRITE), *stack = mapped(STACK, PROT_READ | PROT_WRITE);
  while (fgets(line, sizeof line, stdin))
    run_row(line, code, memory, stack);
  return 0;
}
