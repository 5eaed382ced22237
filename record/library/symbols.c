#define _GNU_SOURCE
#include "symbols.h"

#include <elf.h>
#include <fcntl.h>
#include <string.h>
#include <sys/mman.h>
#include <sys/stat.h>
#include <unistd.h>

/* Returns where this many items begin in the file, or NULL if they aren't all there. */
static const void *items_at(const struct symbols *of, size_t offset, size_t count, size_t size) {
    if (offset > of->bytes || count > (of->bytes - offset) / size) return NULL;
    return of->file + offset;
}

/* Returns the sections of the file, or NULL. */
static const ElfW(Shdr) *sections_of(const struct symbols *of, size_t *count) {
    const ElfW(Ehdr) *head = items_at(of, 0, 1, sizeof *head);
    if (!head || memcmp(head->e_ident, ELFMAG, SELFMAG) != 0) return NULL;
    if (head->e_shentsize != sizeof(ElfW(Shdr)) || head->e_shoff % _Alignof(ElfW(Shdr)))
        return NULL;
    *count = head->e_shnum;
    return items_at(of, head->e_shoff, head->e_shnum, sizeof(ElfW(Shdr)));
}

/* Finds the symbols and their names, of which the last one has its end. */
static bool find(struct symbols *read, unsigned type) {
    size_t count = 0, at = 0;
    const ElfW(Shdr) *sections = sections_of(read, &count), *names;
    if (!sections) return false;
    while (at < count && sections[at].sh_type != type) at++;
    if (at == count || sections[at].sh_link >= count) return false;
    names = &sections[sections[at].sh_link];
    read->count = sections[at].sh_size / sizeof *read->its;
    if (sections[at].sh_offset % _Alignof(ElfW(Sym))) return false;
    read->its = items_at(read, sections[at].sh_offset, read->count, sizeof *read->its);
    read->names = items_at(read, names->sh_offset, names->sh_size, 1);
    read->names_bytes = names->sh_size;
    return read->its && read->names && names->sh_size && !read->names[names->sh_size - 1];
}

bool symbols_read(struct symbols *read, const char *path, unsigned type) {
    struct stat found;
    int descriptor = open(path, O_RDONLY | O_CLOEXEC);
    void *file = MAP_FAILED;
    if (descriptor < 0) return false;
    if (fstat(descriptor, &found) == 0 && S_ISREG(found.st_mode) && found.st_size > 0)
        file = mmap(NULL, (size_t)found.st_size, PROT_READ, MAP_PRIVATE, descriptor, 0);
    close(descriptor);
    if (file == MAP_FAILED) return false;
    *read = (struct symbols){ .file = file, .bytes = (size_t)found.st_size };
    if (find(read, type)) return true;
    symbols_forget(read);
    return false;
}

void symbols_forget(const struct symbols *read) {
    munmap((void *)read->file, read->bytes);
}

const char *symbols_name(const struct symbols *of, size_t at) {
    return of->its[at].st_name < of->names_bytes ? of->names + of->its[at].st_name : "";
}

bool symbols_import(const struct symbols *of, const char *name) {
    for (size_t at = 0; at < of->count; at++) {
        bool is_imported = of->its[at].st_shndx == SHN_UNDEF;
        if (is_imported && strcmp(symbols_name(of, at), name) == 0) return true;
    }
    return false;
}
