/* symbol.c: the function at an address, by the symbol table of an ELF file.
 *
 * dladdr() knows exported functions alone, and a program exports none of its
 * own.  The file is mapped for the moment of the look-up; nothing in it is
 * trusted.
 */
#include "symbol.h"

#include <elf.h>
#include <fcntl.h>
#include <link.h>
#include <stdio.h>
#include <string.h>
#include <sys/mman.h>
#include <sys/stat.h>
#include <unistd.h>

struct file {
    const unsigned char *bytes;
    size_t size;
};

/* What lies at an offset, NULL where it isn't all inside the file. */
static const void *at(const struct file *f, unsigned long offset, unsigned long size)
{
    return offset <= f->size && size <= f->size - offset ? f->bytes + offset : NULL;
}

static int search(const struct file *f, unsigned long address, char *name, size_t room)
{
    const ElfW(Ehdr) *header = at(f, 0, sizeof *header);
    if (!header || memcmp(header->e_ident, ELFMAG, SELFMAG) != 0 || header->e_shentsize != sizeof(ElfW(Shdr)))
        return 0;
    const ElfW(Shdr) *sections = at(f, header->e_shoff, (unsigned long)header->e_shnum * sizeof *sections);
    if (!sections || header->e_shoff % 8)
        return 0;
    for (int i = 0; i < header->e_shnum; i++) {
        const ElfW(Shdr) *s = &sections[i];
        if (s->sh_type != SHT_SYMTAB || s->sh_link >= header->e_shnum || s->sh_offset % 8)
            continue;
        const ElfW(Sym) *symbols = at(f, s->sh_offset, s->sh_size);
        const ElfW(Shdr) *strings = &sections[s->sh_link];
        const char *names = at(f, strings->sh_offset, strings->sh_size);
        if (!symbols || !names)
            continue;
        for (unsigned long k = 0; k < s->sh_size / sizeof *symbols; k++) {
            const ElfW(Sym) *y = &symbols[k];
            if (ELF64_ST_TYPE(y->st_info) != STT_FUNC || address < y->st_value
                || address - y->st_value >= y->st_size || y->st_name >= strings->sh_size)
                continue;
            snprintf(name, room, "%.*s", (int)(strings->sh_size - y->st_name), names + y->st_name);
            return 1;
        }
    }
    return 0;
}

int symbol_at(const char *path, unsigned long address, char *name, size_t room)
{
    int found = 0, fd = open(path, O_RDONLY | O_CLOEXEC);
    struct stat st;
    if (fd < 0)
        return 0;
    if (fstat(fd, &st) == 0 && st.st_size > 0) {
        void *bytes = mmap(NULL, st.st_size, PROT_READ, MAP_PRIVATE, fd, 0);
        if (bytes != MAP_FAILED) {
            struct file f = { bytes, st.st_size };
            found = search(&f, address, name, room);
            munmap(bytes, st.st_size);
        }
    }
    close(fd);
    return found;
}
