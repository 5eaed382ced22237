/* The symbols of an ELF file of this machine. */
#ifndef PIM_SYMBOLS_H
#define PIM_SYMBOLS_H

#include <link.h>
#include <stdbool.h>
#include <stddef.h>

struct symbols {
    const unsigned char *file;
    size_t bytes;
    const ElfW(Sym) *its;
    size_t count;
    const char *names;
    size_t names_bytes;
};

/* Reads those of a section of this type, SHT_SYMTAB or SHT_DYNSYM. Returns false where there is no
 * such section, or the file can't be read. */
bool symbols_read(struct symbols *read, const char *path, unsigned type);

void symbols_forget(const struct symbols *read);

/* Returns the name of a symbol, which is empty where the file has none. */
const char *symbols_name(const struct symbols *of, size_t at);

/* Returns whether the file imports a function: it is named, and isn't defined. */
bool symbols_import(const struct symbols *of, const char *name);

#endif
