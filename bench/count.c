/* Counts the instructions that a program runs, exactly, by running it one instruction at a time. x86-64 Linux alone.
   usage: count PROGRAM ARGUMENTS..           The program raises SIGCONT where the count is to begin; it ends with the program.
          count -whole PROGRAM ARGUMENTS..    The count begins with the program. */

int printf(const char *format, ...);
int fork(void);
int execv(const char *path, char *const *arguments);
_Noreturn void _exit(int status);
int waitpid(int process, int *status, int options);
long ptrace(int request, int process, void *address, void *data);
int personality(unsigned long persona);

/* As the system's headers have them. */
enum { PTRACE_TRACEME = 0, PTRACE_CONT = 7, PTRACE_SINGLESTEP = 9, SIGTRAP = 5, SIGCONT = 18, ADDR_NO_RANDOMIZE = 0x0040000 };

static int stopped_by(int status, int signal)
{
    return status == (signal << 8 | 0x7f);
}

/* Lets the program go on, to its next instruction or its next signal, and answers how that ended. */
static int go_on(int request, int process)
{
    int status;
    if (ptrace(request, process, 0, 0) != 0 || waitpid(process, &status, 0) != process)
        _exit(2);
    return status;
}

int main(int count, char **arguments)
{
    long instructions = 0;
    int process, status, whole;
    if (count < 2)
        return 2;
    whole = arguments[1][0] == '-';
    arguments += whole;
    if (count < 2 + whole)
        return 2;
    process = fork();
    if (process == 0) {
        /* The same addresses in every run, so that every run takes the same way. */
        personality(ADDR_NO_RANDOMIZE);
        ptrace(PTRACE_TRACEME, 0, 0, 0);
        execv(arguments[1], arguments + 1);
        _exit(2);
    }
    if (process < 0 || waitpid(process, &status, 0) != process)
        return 2;
    /* The program's start is a trap too. Any other signal, or an end before its time, means that there is nothing to count. */
    if (stopped_by(status, SIGTRAP) && !whole)
        status = go_on(PTRACE_CONT, process);
    if (!stopped_by(status, whole ? SIGTRAP : SIGCONT))
        return 2;
    do {
        status = go_on(PTRACE_SINGLESTEP, process);
        instructions++;
    } while (stopped_by(status, SIGTRAP));
    if (status != 0)
        return 2;
    printf("%ld\n", instructions);
    return 0;
}
