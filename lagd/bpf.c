/* Tables of the kernel, and what keeps a program at an interface. */
#include "lagd.h"

#include <bpf/bpf.h>
#include <sys/mman.h>

/* Of Linux 6.6, and not in older headers. */
#define TCX_INGRESS 46
#define TCX_EGRESS 47

/* Where a table of `count` values of `size` octets is in this program, or NULL, and errno. */
static void *map_values(uint32_t size, uint32_t count, int map) {
    size_t page = (size_t)sysconf(_SC_PAGESIZE), length = ((size_t)size * count + page - 1) / page * page;
    void *at = map < 0 ? MAP_FAILED : mmap(NULL, length, PROT_READ | PROT_WRITE, MAP_SHARED, map, 0);
    return at == MAP_FAILED ? NULL : at;
}

/* Makes a table of `count` values of `size` octets, which the programs and this one share; answers where it is here, or NULL, and errno. */
void *make_map(uint32_t size, uint32_t count, int *map) {
    const struct bpf_map_create_opts options = {.sz = sizeof options, .map_flags = BPF_F_MMAPABLE};
    *map = bpf_map_create(BPF_MAP_TYPE_ARRAY, NULL, sizeof(uint32_t), size, count, &options);
    return map_values(size, count, *map);
}

/* Takes a table of the last daemon, if it is such a one; answers where it is here, or NULL. */
void *map_again(uint32_t size, uint32_t count, int map) {
    struct bpf_map_info told = {0};
    uint32_t room = sizeof told;
    if (bpf_obj_get_info_by_fd(map, &told, &room) != 0) return NULL;
    if (told.type != BPF_MAP_TYPE_ARRAY || told.value_size != size || told.max_entries != count || !(told.map_flags & BPF_F_MMAPABLE))
        return NULL;
    return map_values(size, count, map);
}

/* Has a program run for what an interface sends, or for what it receives, as long as what it answers is open; or -errno. */
int attach_program(int program, int index, bool egress) {
    return bpf_link_create(program, index, (enum bpf_attach_type)(egress ? TCX_EGRESS : TCX_INGRESS), NULL);
}

static struct bpf_link_info info_of(int attached) {
    struct bpf_link_info told = {0}, none = {0};
    uint32_t room = sizeof told;
    return bpf_obj_get_info_by_fd(attached, &told, &room) == 0 ? told : none;
}

/* The number of what keeps a program at an interface, as the kernel has it; 0 for any other file. */
uint32_t program_keeper(int attached) {
    return info_of(attached).id;
}

/* What keeps a program at an interface runs it no more, whoever else has the file. */
void detach_program(int attached) {
    (void)bpf_link_detach(attached);
}

/* Puts a program in the place of the one that is kept there, between two frames; answers whether it did. */
bool exchange_program(int attached, int program, int index) {
    return info_of(attached).xdp.ifindex == (uint32_t)index /* where a link of TCX has its interface, too */
        && bpf_link_update(attached, program, NULL) == 0;
}
