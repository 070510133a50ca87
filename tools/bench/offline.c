/* offline FILE EXPRESSION: libpcap's offline filter over a capture (pcap_next_ex and pcap_offline_filter); prints how many frames passed. */
#include <pcap/pcap.h>
#include <stdio.h>

int main(int n, char **words)
{
    char error[PCAP_ERRBUF_SIZE];
    struct bpf_program program;
    struct pcap_pkthdr *head;
    const u_char *frame;
    unsigned long passed = 0;
    if (n != 3) {
        fputs("usage: offline FILE EXPRESSION\n", stderr);
        return 2;
    }
    pcap_t *file = pcap_open_offline(words[1], error);
    if (!file) {
        fprintf(stderr, "%s\n", error);
        return 2;
    }
    if (pcap_compile(file, &program, words[2], 1, PCAP_NETMASK_UNKNOWN)) {
        pcap_perror(file, "offline");
        return 2;
    }
    while (pcap_next_ex(file, &head, &frame) == 1)
        if (pcap_offline_filter(&program, head, frame)) passed++;
    printf("%lu\n", passed);
    return 0;
}
