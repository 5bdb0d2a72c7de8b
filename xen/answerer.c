#include "answerer.h"

#include <string.h>

enum {
    ETHERNET = 14, IP = 20, ICMP = 8, UDP = 8, TCP = 20, ARP = 28,    /* octets of headers */
    L4 = ETHERNET + IP,
    TYPE_IP = 0x0800, TYPE_ARP = 0x0806,
    PROTOCOL_ICMP = 1, PROTOCOL_TCP = 6, PROTOCOL_UDP = 17,
    ECHO_REPLY = 0, ECHO_REQUEST = 8,
    FIN = 1, SYN = 2, RST = 4, PUSH = 8, ACK = 16,
    SEGMENT = 1400,
    FIRST_SEQUENCE = 1000
};

static const uint8_t our_mac[6] = { 2, 0, 0, 0, 0, 2 };
static const uint8_t our_ip[4] = { 10, 0, 0, 2 };

static uint32_t get16(const uint8_t *at) { return (uint32_t)at[0] << 8 | at[1]; }
static uint32_t get32(const uint8_t *at) { return get16(at) << 16 | get16(at + 2); }

static void set16(uint8_t *at, uint32_t value)
{
    at[0] = (uint8_t)(value >> 8);
    at[1] = (uint8_t)value;
}

static void set32(uint8_t *at, uint32_t value)
{
    set16(at, value >> 16);
    set16(at + 2, value & 0xFFFF);
}

/* The Internet checksum of some bytes, on top of a sum. */
static uint32_t checksum(const uint8_t *at, uint32_t length, uint32_t sum)
{
    for (uint32_t i = 0; i + 1 < length; i += 2)
        sum += get16(at + i);
    if (length % 2 == 1)
        sum += (uint32_t)at[length - 1] << 8;
    while (sum >> 16)
        sum = (sum & 0xFFFF) + (sum >> 16);
    return ~sum & 0xFFFF;
}

/* A new frame back to where frame came from, with Ethernet header; room for rest bytes more. */
static uint8_t *begin(struct outbox *outbox, const uint8_t *frame, uint32_t rest)
{
    uint8_t *answer = outbox_add(outbox, ETHERNET + rest);

    if (answer) {
        memcpy(answer, frame + 6, 6);
        memcpy(answer + 6, our_mac, 6);
        memcpy(answer + 12, frame + 12, 2);
    }
    return answer;
}

/* The same with IP header. */
static uint8_t *begin_ip(struct outbox *outbox, const uint8_t *frame, uint32_t rest)
{
    uint8_t *answer = begin(outbox, frame, IP + rest), *ip;

    if (!answer)
        return NULL;
    ip = answer + ETHERNET;
    memset(ip, 0, IP);
    ip[0] = 0x45;
    set16(ip + 2, IP + rest);
    ip[6] = 0x40;
    ip[8] = 64;
    ip[9] = frame[ETHERNET + 9];
    memcpy(ip + 12, our_ip, 4);
    memcpy(ip + 16, frame + ETHERNET + 12, 4);
    set16(ip + 10, checksum(ip, IP, 0));
    return answer;
}

static void answer_arp(const uint8_t *frame, uint32_t length, struct outbox *outbox)
{
    const uint8_t *arp = frame + ETHERNET;
    uint8_t *answer;

    if (length < ETHERNET + ARP || get16(arp + 6) != 1 || memcmp(arp + 24, our_ip, 4) != 0)
        return;
    answer = begin(outbox, frame, ARP);
    if (!answer)
        return;
    memcpy(answer + ETHERNET, arp, 6);
    set16(answer + ETHERNET + 6, 2);
    memcpy(answer + ETHERNET + 8, our_mac, 6);
    memcpy(answer + ETHERNET + 14, our_ip, 4);
    memcpy(answer + ETHERNET + 18, arp + 8, 10);
}

static void answer_ping(const uint8_t *frame, uint32_t rest, struct outbox *outbox)
{
    uint8_t *answer;

    if (rest < ICMP || frame[L4] != ECHO_REQUEST)
        return;
    answer = begin_ip(outbox, frame, rest);
    if (!answer)
        return;
    memcpy(answer + L4, frame + L4, rest);
    answer[L4] = ECHO_REPLY;
    set16(answer + L4 + 2, 0);
    set16(answer + L4 + 2, checksum(answer + L4, rest, 0));
}

static void answer_udp(const uint8_t *frame, uint32_t rest, struct outbox *outbox)
{
    uint8_t *answer;

    if (rest < UDP)
        return;
    answer = begin_ip(outbox, frame, rest);
    if (!answer)
        return;
    memcpy(answer + L4, frame + L4 + 2, 2);
    memcpy(answer + L4 + 2, frame + L4, 2);
    set16(answer + L4 + 4, rest);
    set16(answer + L4 + 6, 0);          /* no checksum */
    memcpy(answer + L4 + UDP, frame + L4 + UDP, rest - UDP);
}

static struct connection *find(struct answerer *answerer, uint32_t ports)
{
    for (unsigned i = 0; i < ANSWERER_CONNECTIONS; i++)
        if (answerer->connection[i].ports == ports)
            return &answerer->connection[i];
    return NULL;
}

/* What goes out in a TCP segment: options (a SYN's) or data, not both. */
struct segment {
    uint32_t flags;
    const uint8_t *options;
    uint32_t options_length;
    const uint8_t *data;
    uint32_t length;
};

/* The sum over the pseudo header of a segment to where frame came from. */
static uint32_t pseudo_header(const uint8_t *frame, uint32_t rest)
{
    return PROTOCOL_TCP + rest + get16(our_ip) + get16(our_ip + 2) +
           get16(frame + ETHERNET + 12) + get16(frame + ETHERNET + 14);
}

static void send_segment(struct connection *to, const uint8_t *frame,
                         const struct segment *segment, struct outbox *outbox)
{
    uint32_t header = TCP + segment->options_length, rest = header + segment->length;
    uint8_t *answer = begin_ip(outbox, frame, rest), *tcp;

    if (!answer)
        return;
    tcp = answer + L4;
    memset(tcp, 0, TCP);
    memcpy(tcp, frame + L4 + 2, 2);
    memcpy(tcp + 2, frame + L4, 2);
    set32(tcp + 4, to->next_out);
    set32(tcp + 8, to->next_in);
    tcp[12] = (uint8_t)(header / 4 << 4);
    tcp[13] = (uint8_t)segment->flags;
    set16(tcp + 14, 0xFFFF);
    if (segment->options_length > 0)
        memcpy(tcp + TCP, segment->options, segment->options_length);
    if (segment->length > 0)
        memcpy(tcp + header, segment->data, segment->length);
    set16(tcp + 16, checksum(tcp, rest, pseudo_header(frame, rest)));
    to->next_out += segment->length + ((segment->flags & (SYN | FIN)) != 0);
}

static void answer_syn(struct answerer *answerer, const uint8_t *frame, struct outbox *outbox)
{
    /* Segments of 1448 bytes, window scale 7, and an end of the options. */
    static const uint8_t options[] = { 2, 4, 1448 >> 8, 1448 & 255, 1, 3, 3, 7, 1, 1, 1, 0 };
    const struct segment segment = { .flags = SYN | ACK, .options = options,
                                     .options_length = sizeof options };
    struct connection *to = find(answerer, get32(frame + L4));

    if (!to)
        to = &answerer->connection[answerer->opened++ % ANSWERER_CONNECTIONS];
    *to = (struct connection){ get32(frame + L4), FIRST_SEQUENCE, get32(frame + L4 + 4) + 1,
                               false };
    send_segment(to, frame, &segment, outbox);
}

/* Sends back the data of a segment that came in order, and its end. */
static void echo_segment(struct connection *to, const uint8_t *frame, const uint8_t *data,
                         uint32_t length, bool fin, struct outbox *outbox)
{
    struct segment segment = { .flags = ACK | PUSH };

    to->next_in += length;
    for (uint32_t done = 0; done < length; done += SEGMENT) {
        segment.data = data + done;
        segment.length = length - done < SEGMENT ? length - done : SEGMENT;
        send_segment(to, frame, &segment, outbox);
    }
    if (!fin)
        return;
    to->next_in++;
    segment = (struct segment){ .flags = to->closed ? ACK : ACK | FIN };
    send_segment(to, frame, &segment, outbox);
    to->closed = true;
}

static void answer_tcp(struct answerer *answerer, const uint8_t *frame, uint32_t rest,
                       struct outbox *outbox)
{
    const struct segment again = { .flags = ACK };
    const uint8_t *tcp = frame + L4;
    uint32_t header = rest < TCP ? 0 : (uint32_t)(tcp[12] >> 4) * 4;
    struct connection *to;
    bool fin;

    if (header < TCP || header > rest || (tcp[13] & RST))
        return;
    if (tcp[13] & SYN) {
        answer_syn(answerer, frame, outbox);
        return;
    }
    to = find(answerer, get32(tcp));
    fin = tcp[13] & FIN;
    if (!to || (rest == header && !fin))
        return;
    if (get32(tcp + 4) == to->next_in)
        echo_segment(to, frame, tcp + header, rest - header, fin, outbox);
    else
        send_segment(to, frame, &again, outbox);
}

void answerer_take(struct answerer *answerer, const uint8_t *frame, uint32_t length,
                   struct outbox *outbox)
{
    uint32_t total;

    if (get16(frame + 12) == TYPE_ARP)
        answer_arp(frame, length, outbox);
    if (get16(frame + 12) != TYPE_IP || length < L4 || frame[ETHERNET] != 0x45 ||
        memcmp(frame + ETHERNET + 16, our_ip, 4) != 0)
        return;
    total = get16(frame + ETHERNET + 2);
    if (total < IP || total > length - ETHERNET || (get16(frame + ETHERNET + 6) & 0x3FFF) != 0)
        return;                         /* also for a fragment */
    switch (frame[ETHERNET + 9]) {
    case PROTOCOL_ICMP:
        answer_ping(frame, total - IP, outbox);
        break;
    case PROTOCOL_UDP:
        answer_udp(frame, total - IP, outbox);
        break;
    case PROTOCOL_TCP:
        answer_tcp(answerer, frame, total - IP, outbox);
        break;
    default:
        break;
    }
}
