/* The calls on stream tables, each answer against the papers: entries of every kind, choice and VLAN, in every place and cut everywhere,
 * tables of more than 256 entries, and lookups that differ from a match in one thing; and all this of IP streams. */
#include "check.h"
#include "paper.h"

static Space first, second, third;
static uint8_t table[LONGEST_LENT];

/* An entry's address is the frame's destination or source, with one octet changed by those bits. */
static const uint8_t frame_head[] = {0xFE, 0xDC, 0xBA, 0x98, 0x76, 0x54, 0x02, 0x13, 0x24, 0x35, 0x46, 0x57};

static void put_entry(size_t place, unsigned kind, unsigned choice, unsigned vlan, unsigned handle) {
    uint8_t *entry = table + 12 * place;
    entry[0] = (uint8_t)kind;
    memcpy(entry + 1, kind == 2 ? frame_head + 6 : frame_head, 6);
    entry[7] = (uint8_t)choice;
    entry[8] = (uint8_t)(vlan >> 8);
    entry[9] = (uint8_t)(vlan & 255);
    entry[10] = (uint8_t)(handle >> 8);
    entry[11] = (uint8_t)(handle & 255);
}

static void expect_lookup(size_t table_octets, const uint8_t *frame, size_t octets) {
    const uint8_t *lent_table = lend(&first, table, table_octets), *lent_frame = lend(&second, frame, octets);
    uint16_t handle = 0, *found = (uint16_t *)lend_aligned(&third, NULL, sizeof handle);
    const uint8_t answer = paper_lookup(table, table_octets, frame, octets, &handle);
    EXPECT(ahz_lookup(lent_table, table_octets, lent_frame, octets, found) == answer);
    EXPECT(kept_but(&first, 0) && kept_but(&second, 0) && holds(&third, &handle, answer == AHZ_STREAM ? sizeof handle : 0));
}

/* The table alone, and before a frame that is good and one that is not. */
static void expect_table(size_t octets) {
    static uint8_t frame[20];
    const uint8_t *lent = lend(&first, table, octets);
    EXPECT(ahz_check_table(lent, octets) == paper_check_table(table, octets));
    EXPECT(kept_but(&first, 0));
    memcpy(frame, frame_head, sizeof frame_head);
    expect_lookup(octets, frame, sizeof frame);
    expect_lookup(octets, frame, 13);
}

static void entries(void) {
    static const uint8_t kinds[] = {0, 1, 2, 3, 4, 5, 0x81, 0xFF}, choices[] = {0, 1, 2, 3, 4, 0x81, 0xFF};
    static const uint16_t vlans[] = {0, 1, 255, 256, 4094, 4095, 4096, 0x8001, 65535};
    size_t place, kind, choice, vlan, octets;
    for (place = 0; place < 3; place++) {
        for (octets = 0; octets < place; octets++) put_entry(octets, 1 + (unsigned)octets % 2, 3, 7, 1);
        put_entry(place + 1, 1, 3, 0, 0xABCD);
        for (kind = 0; kind < COUNT(kinds); kind++) {
            for (choice = 0; choice < COUNT(choices); choice++) {
                for (vlan = 0; vlan < COUNT(vlans); vlan++) {
                    put_entry(place, kinds[kind], choices[choice], vlans[vlan], 0x1234);
                    expect_table(12 * place + 11);
                    expect_table(12 * place + 12);
                    expect_table(12 * place + 24);
                    expect_table(12 * place + 25);
                }
            }
            for (octets = 0; octets <= 24; octets++) expect_table(12 * place + octets);
        }
    }
}

/* Full, overfull, and with one bad entry in it: the first that is wrong is the answer, be it the 257th. */
static void long_tables(void) {
    static const size_t places[] = {0, 1, 2, 100, 254, 255, 256, 257, 400};
    static const size_t lengths[] = {12 * 255, 12 * 256 - 1, 12 * 256, 12 * 256 + 1, 12 * 256 + 11, 12 * 257, 12 * 258, 12 * 500,
                                     65536, 65536 + 12, 65536 + 12 * 256};
    size_t place, length, bad, i;
    for (place = 0; place < COUNT(places); place++) {
        for (bad = 0; bad < 4; bad++) {
            for (i = 0; 12 * (i + 1) <= sizeof table; i++) put_entry(i, 1 + (unsigned)(i % 2), 3, 7, (unsigned)i);
            put_entry(255, 2, 3, 0, 0xAB77);
            if (bad == 1) table[12 * places[place]] = 9;
            if (bad == 2) table[12 * places[place] + 7] = 4;
            if (bad == 3) table[12 * places[place] + 8] = 0x10;
            for (length = 0; length < COUNT(lengths); length++) expect_table(lengths[length]);
        }
    }
}

/* Each entry before one that matches every frame to the same destination, whose handle says that the first did not match. */
static void lookups(void) {
    static const struct {
        uint8_t octets[12];
        size_t count;
    } tags[] = {{{0}, 0}, {{0x81, 0, 0, 0}, 4}, {{0x81, 0, 0xF0, 0}, 4}, {{0x81, 0, 0x00, 0x01}, 4}, {{0x81, 0, 0x31, 0x05}, 4},
                {{0x81, 0, 0x0F, 0xFE}, 4}, {{0xF1, 0xC1, 0, 0, 1, 5}, 6}, {{0x81, 0, 0, 5, 0xF1, 0xC1, 0, 0, 1, 2}, 10},
                {{0x81, 0, 0, 0, 0xF1, 0xC1, 0, 0, 1, 2}, 10}, {{0x88, 0xA8, 0x01, 0x05}, 4}, {{0x81, 0, 0x0F, 0xFF}, 4},
                {{0x89, 0x2F, 0x10, 0x0A, 1, 5}, 6}, {{0x81, 0, 0, 5, 0x89, 0x2F, 0x10, 0x0A, 1, 2}, 10},
                {{0x81, 0, 0, 0, 0x89, 0x2F, 0x10, 0x0A, 1, 2}, 10}, {{0x89, 0x2F, 0x10, 0x0A, 1, 5, 0xF1, 0xC1}, 8},
                {{0xF1, 0xC1, 0, 0, 1, 5, 0x89, 0x2F}, 8}};
    static const uint16_t vlans[] = {0, 1, 4, 5, 0x0100, 0x0105, 0x0104, 0x0205, 4094}, handles[] = {0, 1, 0x0100, 0xFFFF};
    static const uint8_t changes[] = {0, 0x01, 0x80};
    size_t tag, vlan, turn = 0, octet, change;
    unsigned kind, choice;
    for (tag = 0; tag < COUNT(tags); tag++) {
        uint8_t frame[40];
        const size_t octets = 12 + tags[tag].count + 6;
        memset(frame, 0x11, sizeof frame);
        memcpy(frame, frame_head, 12);
        memcpy(frame + 12, tags[tag].octets, tags[tag].count);
        for (kind = 1; kind <= 2; kind++) {
            for (choice = 1; choice <= 3; choice++) {
                for (vlan = 0; vlan < COUNT(vlans); vlan++) {
                    put_entry(0, kind, choice, vlans[vlan], handles[turn++ % COUNT(handles)]);
                    put_entry(1, kind, choice, vlans[vlan], 0x7777);
                    put_entry(2, 1, 3, 0, 0xABCD);
                    expect_lookup(36, frame, octets);
                    expect_lookup(12, frame, octets);
                    expect_lookup(36, frame, 12 + tags[tag].count + 1);
                }
                for (octet = 0; octet < 6; octet++) {
                    for (change = 0; change < COUNT(changes); change++) {
                        put_entry(0, kind, choice, 0, handles[turn++ % COUNT(handles)]);
                        table[1 + octet] ^= changes[change];
                        expect_lookup(12, frame, octets);
                        table[0] = (uint8_t)(3 - kind); /* the other address */
                        expect_lookup(12, frame, octets);
                    }
                }
            }
        }
        expect_lookup(0, frame, octets);
    }
    expect_lookup(0, table, 0);
    put_entry(0, 1, 3, 0, 1);
    expect_lookup(12, table, 0);
    expect_lookup(11, table, 0);
}

/* A number that is put in, in whichever encoding, does not change which stream a frame belongs to; of IP streams see below. */
static void same_stream(void) {
    static const uint8_t tags[] = {0x81, 0, 0x20, 0x05, 0x81, 0, 0xE0, 0x00};
    uint8_t frame[40], numbered[46];
    unsigned tag, kind, choice, vlan;
    int encoding;
    for (tag = 0; tag < 3; tag++) { /* with 2 there is none */
        const size_t octets = 12 + (tag == 2 ? 0 : 4) + 10;
        memset(frame, 0x11, sizeof frame);
        memcpy(frame, frame_head, 12);
        if (tag < 2) memcpy(frame + 12, tags + 4 * tag, 4);
        for (encoding = 0; encoding < ENCODINGS; encoding++) {
            EXPECT(paper_insert(encoding, frame, octets, 258, 10, numbered) == 0);
            for (kind = 1; kind <= 2; kind++) {
                for (choice = 1; choice <= 3; choice++) {
                    for (vlan = 0; vlan <= 5; vlan += 5) {
                        uint16_t handle = 0, same = 0;
                        put_entry(0, kind, choice, vlan, 0x1234);
                        EXPECT(ahz_lookup(table, 12, frame, octets, &handle) == ahz_lookup(table, 12, numbered, octets + 6, &same));
                        EXPECT(handle == same);
                        expect_lookup(12, numbered, octets + 6);
                    }
                }
            }
        }
    }
}

/* Tables of a few entries in which several match, and which one is first decides. */
static void first_of_several(void) {
    static const uint8_t vlans[] = {0, 0, 5, 6};
    unsigned n, i;
    for (n = 0; n < 3000; n++) {
        const size_t count = 1 + roll() % 6;
        uint8_t frame[20];
        memset(frame, 0, sizeof frame);
        memcpy(frame, frame_head, 12);
        if (roll() % 2 == 0) frame[12] = 0x81;
        frame[15] = (uint8_t)(roll() % 7);
        for (i = 0; i < count; i++) {
            put_entry(i, 1 + (unsigned)(roll() % 2), 1 + (unsigned)(roll() % 3), vlans[roll() % 4], (unsigned)(roll() % 65536));
            if (roll() % 3 == 0) table[12 * i + 1 + roll() % 6] ^= 1;
        }
        expect_lookup(12 * count, frame, sizeof frame);
    }
}

/* An IP packet, UDP, behind the addresses and a C-TAG of VLAN 5; no two of its fields are alike. Its header has one word of options. */
enum { IP_AT = 12 + 4 + 2, IP_HEADER = 24, IP_FRAME = IP_AT + IP_HEADER + 4 + 4 };
static uint8_t ip_frame[IP_FRAME];

/* The entry that asks for all of it, so many octets behind the table's start. */
static void put_ip(size_t at, unsigned handle) {
    static const uint8_t asked[] = {0x0A, 0x01, 0x02, 0x03, 0xC0, 0x09, 0x08, 0x07, 46, AHZ_PROTOCOL_UDP, 0x13, 0x89, 0x17, 0xB6};
    static const uint8_t tagged[] = {AHZ_CHOICE_TAGGED, 0, 5};
    uint8_t *entry = table + at;
    entry[0] = AHZ_KIND_IP;
    memcpy(entry + 1, frame_head, 6);
    memcpy(entry + 7, tagged, sizeof tagged);
    memcpy(entry + 10, asked, sizeof asked);
    entry[24] = (uint8_t)(handle >> 8);
    entry[25] = (uint8_t)(handle & 255);
}

static void put_ip_frame(void) {
    static const uint8_t tag_and_type[] = {0x81, 0, 0x60, 0x05, 0x08, 0x00};
    static const uint8_t packet[] = {0x46, 46 << 2, 0, 32, 0xAB, 0xCD, 0x40, 0, 64, 17, 0x5A, 0xA5, 0x0A, 0x01, 0x02, 0x03,
                                     0xC0, 0x09, 0x08, 0x07, 0x77, 0x77, 0x77, 0x77, 0x13, 0x89, 0x17, 0xB6, 0, 8, 0, 0};
    memcpy(ip_frame, frame_head, 12);
    memcpy(ip_frame + 12, tag_and_type, sizeof tag_and_type);
    memcpy(ip_frame + IP_AT, packet, sizeof packet);
}

/* One match as it stands in the papers, and what is said of frames that are none. */
static void ip_written(void) {
    uint16_t handle = 0xABCD;
    put_ip(0, 0x1234);
    put_ip_frame();
    EXPECT(ahz_check_table(table, AHZ_IP_ENTRY_OCTETS) == AHZ_DONE);
    EXPECT(ahz_lookup(table, AHZ_IP_ENTRY_OCTETS, ip_frame, sizeof ip_frame, &handle) == AHZ_STREAM && handle == 0x1234);
    handle = 0xABCD;
    EXPECT(ahz_lookup(table, AHZ_IP_ENTRY_OCTETS, ip_frame, IP_AT + IP_HEADER + 3, &handle) == AHZ_NO_STREAM && handle == 0xABCD);
    EXPECT(ahz_lookup(table, AHZ_IP_ENTRY_OCTETS, ip_frame, IP_AT, &handle) == AHZ_NO_STREAM && handle == 0xABCD);
    EXPECT(ahz_lookup(table, AHZ_IP_ENTRY_OCTETS, ip_frame, IP_AT - 1, &handle) == AHZ_R_TAG_CUT && handle == 0xABCD);
    ip_frame[17] = 0x01;
    EXPECT(ahz_lookup(table, AHZ_IP_ENTRY_OCTETS, ip_frame, sizeof ip_frame, &handle) == AHZ_NO_STREAM && handle == 0xABCD);
    table[18] = AHZ_DSCP_LAST + 1;
    EXPECT(ahz_check_table(table, AHZ_IP_ENTRY_OCTETS) == AHZ_R_ENTRY_RANGE);
    table[18] = AHZ_DSCP_ANY - 1;
    EXPECT(ahz_check_table(table, AHZ_IP_ENTRY_OCTETS) == AHZ_R_ENTRY_RANGE);
    table[18] = AHZ_DSCP_ANY;
    table[19] = AHZ_PROTOCOL_SCTP + 1;
    EXPECT(ahz_check_table(table, AHZ_IP_ENTRY_OCTETS) == AHZ_R_ENTRY_RANGE);
    table[19] = AHZ_PROTOCOL_NONE - 1;
    EXPECT(ahz_check_table(table, AHZ_IP_ENTRY_OCTETS) == AHZ_R_ENTRY_RANGE);
    EXPECT(ahz_check_table(table, AHZ_IP_ENTRY_OCTETS - 1) == AHZ_R_ENTRY_CUT);
}

/* Every value of each octet of an entry, before one that matches less, and that entry cut everywhere. */
static void ip_entries(void) {
    size_t octet, cut;
    unsigned value, next;
    put_ip_frame();
    for (next = 1; next <= 4; next++) {
        ip_frame[IP_AT + 9] = (uint8_t)(next == 3 ? 6 : next == 4 ? 132 : 17);
        for (octet = 0; octet < 26; octet++) {
            for (value = 0; value < 256; value++) {
                put_ip(0, 0x1234);
                table[19] = (uint8_t)next;
                table[octet] = (uint8_t)value;
                put_ip(26, 0x5678);
                table[26 + 18] = AHZ_DSCP_ANY;
                table[26 + 19] = AHZ_PROTOCOL_NONE;
                EXPECT(ahz_check_table(table, 26) == paper_check_table(table, 26));
                expect_lookup(26, ip_frame, sizeof ip_frame);
                expect_lookup(52, ip_frame, sizeof ip_frame);
            }
        }
        put_ip(0, 0x1234);
        table[19] = (uint8_t)next;
        for (cut = 0; cut <= 52; cut++) {
            expect_table(cut);
            expect_lookup(cut, ip_frame, sizeof ip_frame);
        }
    }
}

/* Every value of each octet of a frame behind its addresses, and that frame cut everywhere, for entries that ask for both ports, for one,
 * for none, and for no protocol. */
static void ip_frames(void) {
    static const uint8_t asked[][5] = {{1, 0x13, 0x89, 0x17, 0xB6}, {2, 0x13, 0x89, 0x17, 0xB6}, {2, 0x13, 0x89, 0, 0},
                                       {2, 0, 0, 0x17, 0xB6}, {2, 0, 0, 0, 0}, {2, 0x17, 0xB6, 0x13, 0x89}};
    size_t i, octet, cut;
    unsigned value;
    put_ip(0, 0x1234);
    for (i = 0; i < COUNT(asked); i++) {
        memcpy(table + 19, asked[i], sizeof asked[i]);
        for (octet = 12; octet < IP_FRAME; octet++) {
            for (value = 0; value < 256; value++) {
                put_ip_frame();
                ip_frame[octet] = (uint8_t)value;
                expect_lookup(26, ip_frame, sizeof ip_frame);
            }
        }
        for (value = 0; value < 16; value++) { /* header lengths */
            put_ip_frame();
            ip_frame[IP_AT] = (uint8_t)(0x40 + value);
            for (cut = 0; cut <= IP_FRAME; cut++) expect_lookup(26, ip_frame, cut);
        }
    }
}

/* A number does not change the stream of an IP frame either, whatever is cut of it, but that a trailer may stand for what is cut. */
static void same_ip_stream(void) {
    static const uint8_t asked[][5] = {{1, 0, 0, 0, 0}, {2, 0, 0, 0, 0}, {2, 0x13, 0x89, 0x17, 0xB6}, {2, 0x13, 0x89, 0, 0}};
    uint8_t numbered[IP_FRAME + 6];
    size_t i, octets;
    int encoding;
    put_ip(0, 0x1234);
    put_ip_frame();
    for (i = 0; i < COUNT(asked); i++) {
        const size_t least = IP_AT + IP_HEADER + (i < 2 ? 0 : 4);
        memcpy(table + 19, asked[i], sizeof asked[i]);
        for (octets = IP_AT; octets <= IP_FRAME; octets++) {
            for (encoding = 0; encoding < ENCODINGS; encoding++) {
                uint16_t handle = 0, same = 0;
                EXPECT(paper_insert(encoding, ip_frame, octets, 0x1389, 10, numbered) == 0);
                EXPECT(ahz_lookup(table, 26, ip_frame, octets, &handle) == (octets < least ? AHZ_NO_STREAM : AHZ_STREAM));
                expect_lookup(26, numbered, octets + 6);
                if (encoding == BY_PRP && octets < least) continue;
                EXPECT(ahz_lookup(table, 26, numbered, octets + 6, &same) == (octets < least ? AHZ_NO_STREAM : AHZ_STREAM));
                EXPECT(handle == same);
            }
        }
    }
}

/* Tables of all three kinds, from empty ones to overfull ones, good or with an octet changed, before IP frames with a number or without. */
static void mixed(void) {
    static const size_t counts[] = {0, 1, 2, 3, 7, 255, 256, 257};
    unsigned n;
    size_t i;
    for (n = 0; n < 4000; n++) {
        const size_t count = counts[roll() % (n % 8 == 0 ? COUNT(counts) : 5)];
        size_t at = 0, octets = IP_FRAME;
        uint8_t frame[IP_FRAME + 6];
        for (i = 0; i < count; i++) {
            const unsigned kind = 1u << roll() % 3, handle = (unsigned)(roll() % 65536);
            put_ip(at, handle);
            table[at] = (uint8_t)kind;
            if (kind == 2) memcpy(table + at + 1, frame_head + 6, 6);
            table[at + 7] = (uint8_t)(1 + roll() % 3);
            table[at + 9] = (uint8_t)(5 * (roll() % 2));
            if (kind != 4) {
                table[at + 10] = (uint8_t)(handle >> 8);
                table[at + 11] = (uint8_t)(handle & 255);
            } else {
                table[at + 18] = (uint8_t)(roll() % 2 == 0 ? 255 : 46);
                table[at + 19] = (uint8_t)(1 + roll() % 4);
                if (roll() % 3 == 0) memset(table + at + 20, 0, 2);
                if (roll() % 3 == 0) memset(table + at + 22, 0, 2);
                if (roll() % 3 == 0) memset(table + at + 10, 0, 8);
            }
            if (roll() % 2 == 0) table[at + 1 + roll() % 6] ^= 1;
            at += paper_entry(table[at]);
        }
        put_ip_frame();
        ip_frame[IP_AT + roll() % 12] ^= (uint8_t)(roll() % 4 == 0 ? 1 << roll() % 8 : 0);
        memcpy(frame, ip_frame, IP_FRAME);
        if (roll() % 3 == 0) {
            EXPECT(paper_insert((int)(roll() % ENCODINGS), ip_frame, IP_FRAME, 258, 10, frame) == 0);
            octets += 6;
        }
        if (roll() % 4 == 0) octets -= roll() % 12;
        expect_lookup(at, frame, octets);
        if (at == 0) continue;
        expect_lookup(roll() % at, frame, octets);
        table[roll() % at] ^= (uint8_t)(1 << roll() % 8);
        EXPECT(ahz_check_table(table, at) == paper_check_table(table, at));
        expect_lookup(at, frame, octets);
    }
}

/* The longest table, with one octet less and more, and in it an entry that is bad or the only match. */
static void longest_ip_table(void) {
    static const size_t places[] = {0, 1, 128, 254, 255};
    size_t i, place;
    put_ip_frame();
    for (place = 0; place < COUNT(places); place++) {
        for (i = 0; i < 257; i++) {
            put_ip(26 * i, (unsigned)i);
            if (i != places[place]) table[26 * i + 23] ^= 1;
        }
        expect_lookup(AHZ_TABLE_LONGEST, ip_frame, sizeof ip_frame);
        expect_table(AHZ_TABLE_LONGEST - 1);
        expect_table(AHZ_TABLE_LONGEST + 1);
        expect_table(AHZ_TABLE_LONGEST + 26);
        table[26 * places[place] + 18] = 64;
        expect_table(AHZ_TABLE_LONGEST);
        expect_table(AHZ_TABLE_LONGEST + 1);
    }
}

int main(void) {
    static void (*const parts[])(void) = {entries,    long_tables, lookups,        same_stream, first_of_several, ip_written,
                                          ip_entries, ip_frames,   same_ip_stream, mixed,       longest_ip_table};
    return run_tests("tests/c/tables.c", parts, COUNT(parts));
}
