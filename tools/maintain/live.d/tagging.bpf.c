/* Takes the tag of cb[0], of the type of cb[1], beside a frame, as a card does, and goes on with the sender. */
#include <linux/bpf.h>
#include <stdint.h>

#include <bpf/bpf_helpers.h>

struct {
    __uint(type, BPF_MAP_TYPE_PROG_ARRAY);
    __uint(max_entries, 1);
    __type(key, uint32_t);
    __type(value, uint32_t);
} sender SEC(".maps");

SEC("tc")
int tagging(struct __sk_buff *skb) {
    if (skb->cb[1] != 0) (void)bpf_skb_vlan_push(skb, (uint16_t)skb->cb[1], (uint16_t)skb->cb[0]);
    bpf_tail_call(skb, &sender, 0);
    return 99;
}

char LICENSE[] SEC("license") = "GPL";
