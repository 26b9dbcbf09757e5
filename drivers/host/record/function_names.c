/* function_names.c: names for addresses of functions, out of the program's own symbol table, and for major codes; and which
   files are the host's. */
#include "record/record.h"
#include <elf.h>
#include <link.h>
#include <sys/mman.h>
#include <sys/stat.h>
#include <fcntl.h>
#include <unistd.h>

typedef struct { uintptr_t from, to, most; uint32_t number; const char *name; } Function; /* most: the last end so far */
static Function *functions; /* by where they begin */
static const Elf64_Shdr *sections;
static size_t n_functions, n_sections;
static const char *section_names;
static uintptr_t base;

static int take_base(struct dl_phdr_info *info, size_t size, void *context)
{
    (void)size, (void)context;
    base = info->dlpi_addr; /* the first one is the program */
    return 1;
}

static int by_begin(const void *a, const void *b)
{
    const Function *f = a, *g = b;
    return f->from < g->from ? -1 : f->from > g->from;
}

static void take_functions(const Elf64_Sym *symbols, size_t n, const char *strings)
{
    functions = calloc(n, sizeof *functions);
    for (size_t i = 0; functions && i < n; i++) {
        const uintptr_t from = symbols[i].st_value, to = from + (symbols[i].st_size ? symbols[i].st_size : 1);
        if (ELF64_ST_TYPE(symbols[i].st_info) == STT_FUNC)
            functions[n_functions++] = (Function){ from, to, 0, (uint32_t)i, strings + symbols[i].st_name };
    }
    qsort(functions, n_functions, sizeof *functions, by_begin);
    for (size_t i = 0; i < n_functions; i++) {
        const uintptr_t before = i ? functions[i - 1].most : 0;
        functions[i].most = functions[i].to > before ? functions[i].to : before;
    }
}

static void read_symbols(void)
{
    struct stat s;
    int file = open("/proc/self/exe", O_RDONLY);
    if (file < 0 || fstat(file, &s) < 0)
        return;
    const char *all = mmap(NULL, (size_t)s.st_size, PROT_READ, MAP_PRIVATE, file, 0);
    close(file);
    if (all == MAP_FAILED || memcmp(all, ELFMAG, SELFMAG) || all[EI_CLASS] != ELFCLASS64)
        return;
    const Elf64_Ehdr *head = (const void *)all;
    sections = (const void *)(all + head->e_shoff);
    n_sections = head->e_shnum;
    section_names = all + sections[head->e_shstrndx].sh_offset;
    for (size_t i = 0; i < n_sections; i++)
        if (sections[i].sh_type == SHT_SYMTAB)
            take_functions((const void *)(all + sections[i].sh_offset), sections[i].sh_size / sizeof(Elf64_Sym),
                           all + sections[sections[i].sh_link].sh_offset);
    dl_iterate_phdr(take_base, NULL);
}

/* How many functions begin there or before. */
static size_t begun_by(uintptr_t at)
{
    size_t least = 0, most = n_functions;
    while (least < most) {
        const size_t middle = (least + most) / 2;
        if (functions[middle].from <= at)
            least = middle + 1;
        else
            most = middle;
    }
    return least;
}

/* The function that this address is in, or "?" where that can't be told. Of several names it is the first in the file. */
const char *function_name(const void *address)
{
    static pthread_once_t once = PTHREAD_ONCE_INIT;
    pthread_once(&once, read_symbols);
    const uintptr_t at = (uintptr_t)address - base;
    const Function *first = NULL;
    for (size_t i = begun_by(at); i > 0 && functions[i - 1].most > at; i--)
        if (functions[i - 1].to > at && (!first || functions[i - 1].number < first->number))
            first = &functions[i - 1];
    return first ? first->name : "?";
}

bool is_in_program(const void *address) { return *function_name(address) != '?'; }

/* Where the address lies in the program's file: what `addr2line` takes. */
unsigned long place_in_program(const void *address)
{
    function_name(address);
    return (unsigned long)((uintptr_t)address - base);
}

/* The section that is the code of one driver, as building.py names it, or NULL where the address is in none. */
static const Elf64_Shdr *driver_code(const void *address)
{
    const uintptr_t at = place_in_program(address);
    for (size_t i = 0; i < n_sections; i++)
        if (at >= sections[i].sh_addr && at < sections[i].sh_addr + sections[i].sh_size &&
            !strncmp(section_names + sections[i].sh_name, "code_of_", 8))
            return &sections[i];
    return NULL;
}

/* Whether both addresses are code of one driver, which was linked alone. */
bool is_code_of_one(const void *a, const void *b)
{
    const Elf64_Shdr *code = driver_code(a);
    return code && code == driver_code(b);
}

const char *major_name(int major)
{
    static const char *const names[] = { "CREATE", "CREATE_NAMED_PIPE", "CLOSE", "READ", "WRITE", "QUERY_INFORMATION",
        "SET_INFORMATION", "QUERY_EA", "SET_EA", "FLUSH_BUFFERS", "QUERY_VOLUME_INFORMATION", "SET_VOLUME_INFORMATION",
        "DIRECTORY_CONTROL", "FILE_SYSTEM_CONTROL", "DEVICE_CONTROL", "INTERNAL_DEVICE_CONTROL", "SHUTDOWN",
        "LOCK_CONTROL", "CLEANUP", "CREATE_MAILSLOT", "QUERY_SECURITY", "SET_SECURITY", "POWER", "SYSTEM_CONTROL",
        "DEVICE_CHANGE", "QUERY_QUOTA", "SET_QUOTA", "PNP" };
    return major >= 0 && major <= IRP_MJ_MAXIMUM_FUNCTION ? names[major] : "?";
}

/* Where a file of the host stands in its folder, or NULL where it is another one. */
const char *path_in_host(const char *file)
{
    const size_t n = strlen(__FILE__) - strlen("record/function_names.c");
    return file && !strncmp(file, __FILE__, n) ? file + n : NULL;
}

/* Whether a call is made by the host's own code, or its own drivers: they are never refused, for one. */
bool is_hosts_file(const char *file) { return !file || path_in_host(file); }
