/* Reads the CopyData frames of a session and the messages of pgoutput by hand, for the measuring programs in C: each payload is copied once into
 * a buffer that is kept, and the texts and cells of a message are pointers into it. Every field is checked. */
#include <stdint.h>
#include <stdio.h>
#include <stdlib.h>
#include <string.h>

#define MAX_FRAME 16777216u
#define MAX_COLUMNS 1600

struct bytes {
    const unsigned char *at;
    size_t len;
};

struct cell {
    unsigned char kind;
    struct bytes value;
};

struct tuple {
    struct bytes encoded;
    unsigned width;
    struct cell cells[MAX_COLUMNS];
};

struct column {
    int key;
    struct bytes name;
    uint32_t type_oid, modifier;
};

struct message {
    unsigned char letter, kind, identity, first;
    uint32_t oid, xid, subxid;
    uint64_t lsn, end;
    int64_t time;
    struct bytes namespace, name, encoded_columns;
    unsigned columns_len;
    struct column columns[MAX_COLUMNS];
    struct tuple old, row;
};

static uint32_t int32(const unsigned char *p)
{
    return (uint32_t)p[0] << 24 | (uint32_t)p[1] << 16 | (uint32_t)p[2] << 8 | p[3];
}

static uint64_t int64(const unsigned char *p)
{
    return (uint64_t)int32(p) << 32 | int32(p + 4);
}

static int is_utf8(const unsigned char *s, size_t len)
{
    static const uint32_t least[] = {0, 0x80, 0x800, 0x10000};
    size_t i = 0;
    while (i < len) {
        uint64_t word;
        if (i + 8 <= len && (memcpy(&word, s + i, 8), !(word & 0x8080808080808080u))) {
            i += 8;
            continue;
        }
        uint32_t c = s[i];
        unsigned more = c < 0x80 ? 0 : (c & 0xe0) == 0xc0 ? 1 : (c & 0xf0) == 0xe0 ? 2 : (c & 0xf8) == 0xf0 ? 3 : 4;
        if (more == 4 || more >= len - i)
            return 0;
        if (more)
            c &= 0x3f >> more;
        for (unsigned k = 1; k <= more; k++) {
            if ((s[i + k] & 0xc0) != 0x80)
                return 0;
            c = c << 6 | (s[i + k] & 0x3f);
        }
        if (c < least[more] || c > 0x10ffff || (c >= 0xd800 && c < 0xe000))
            return 0;
        i += more + 1;
    }
    return 1;
}

/* Each reader takes its field off the front, or returns 0. */
static int take(struct bytes *rest, size_t len, const unsigned char **field)
{
    if (rest->len < len)
        return 0;
    *field = rest->at;
    rest->at += len;
    rest->len -= len;
    return 1;
}

static int take_oid(struct bytes *rest, uint32_t *oid)
{
    const unsigned char *p;
    if (!take(rest, 4, &p))
        return 0;
    *oid = int32(p);
    return 1;
}

static int take_text(struct bytes *rest, struct bytes *text)
{
    const unsigned char *zero = memchr(rest->at, 0, rest->len);
    if (!zero || !is_utf8(rest->at, zero - rest->at))
        return 0;
    text->at = rest->at;
    text->len = zero - rest->at;
    rest->at += text->len + 1;
    rest->len -= text->len + 1;
    return 1;
}

static int take_count(struct bytes *rest, unsigned *count)
{
    const unsigned char *p;
    if (!take(rest, 2, &p))
        return 0;
    *count = (unsigned)p[0] << 8 | p[1];
    return *count <= MAX_COLUMNS;
}

static int take_cell(struct bytes *rest, struct cell *cell)
{
    const unsigned char *p;
    if (!take(rest, 1, &p))
        return 0;
    cell->kind = *p;
    if (*p == 'n' || *p == 'u')
        return 1;
    if ((*p != 't' && *p != 'b') || !take(rest, 4, &p) || int32(p) > INT32_MAX)
        return 0;
    cell->value.len = int32(p);
    if (!take(rest, cell->value.len, &cell->value.at))
        return 0;
    return cell->kind == 'b' || is_utf8(cell->value.at, cell->value.len);
}

static int take_tuple(struct bytes *rest, struct tuple *tuple)
{
    tuple->encoded = *rest;
    if (!take_count(rest, &tuple->width))
        return 0;
    for (unsigned k = 0; k < tuple->width; k++)
        if (!take_cell(rest, &tuple->cells[k]))
            return 0;
    tuple->encoded.len -= rest->len;
    return 1;
}

static int take_column(struct bytes *rest, struct column *column)
{
    const unsigned char *p;
    if (!take(rest, 1, &p) || *p > 1 || !take_text(rest, &column->name))
        return 0;
    column->key = *p;
    return take_oid(rest, &column->type_oid) && take_oid(rest, &column->modifier);
}

static int take_relation(struct bytes *rest, struct message *m)
{
    const unsigned char *p;
    if (!take_oid(rest, &m->oid) || !take_text(rest, &m->namespace) || !take_text(rest, &m->name) || !take(rest, 1, &p)
        || (*p != 'd' && *p != 'n' && *p != 'f' && *p != 'i'))
        return 0;
    m->identity = *p;
    m->encoded_columns = *rest;
    if (!take_count(rest, &m->columns_len))
        return 0;
    for (unsigned k = 0; k < m->columns_len; k++)
        if (!take_column(rest, &m->columns[k]))
            return 0;
    m->encoded_columns.len -= rest->len;
    return 1;
}

/* the old tuple, if there is one, and the letter of the new one */
static int take_old(struct bytes *rest, struct message *m)
{
    const unsigned char *p;
    if (!take(rest, 1, &p))
        return 0;
    m->kind = *p;
    if (*p == 'N')
        return 1;
    return (*p == 'K' || *p == 'O') && take_tuple(rest, &m->old) && take(rest, 1, &p) && *p == 'N';
}

static int take_begin(struct bytes *rest, struct message *m)
{
    const unsigned char *p;
    if (!take(rest, 20, &p))
        return 0;
    m->lsn = int64(p);
    m->time = (int64_t)int64(p + 8);
    m->xid = int32(p + 16);
    return 1;
}

/* the fields of a Commit, and of a Stream Commit after its xid */
static int take_commit(struct bytes *rest, struct message *m)
{
    const unsigned char *p;
    if (!take(rest, 25, &p) || *p)
        return 0;
    m->lsn = int64(p + 1);
    m->end = int64(p + 9);
    m->time = (int64_t)int64(p + 17);
    return 1;
}

/* the fields of a Relation or of a change, from the OID on */
static int take_item(struct bytes *rest, struct message *m)
{
    const unsigned char *p;
    switch (m->letter) {
    case 'R':
        return take_relation(rest, m);
    case 'I':
        return take_oid(rest, &m->oid) && take(rest, 1, &p) && *p == 'N' && take_tuple(rest, &m->row);
    case 'U':
        return take_oid(rest, &m->oid) && take_old(rest, m) && take_tuple(rest, &m->row);
    case 'D':
        return take_oid(rest, &m->oid) && take(rest, 1, &p) && (*p == 'K' || *p == 'O') && take_tuple(rest, &m->old);
    default:
        return 0;
    }
}

static int take_fields(struct bytes *rest, struct message *m)
{
    const unsigned char *p;
    switch (m->letter) {
    case 'B':
        return take_begin(rest, m);
    case 'C':
        return take_commit(rest, m);
    case 'S':
        if (!take_oid(rest, &m->xid) || !take(rest, 1, &p) || *p > 1)
            return 0;
        m->first = *p;
        return 1;
    case 'E':
        return 1;
    case 'c':
        return take_oid(rest, &m->xid) && take_commit(rest, m);
    case 'A':
        return take_oid(rest, &m->xid) && take_oid(rest, &m->subxid);
    default:
        return take_item(rest, m);
    }
}

static int is_item(unsigned char letter)
{
    return letter == 'R' || letter == 'I' || letter == 'U' || letter == 'D';
}

/* Reads a message. An item inside of a stream block has the xid of the one who made it before its other fields. */
static int read_message(struct bytes body, int in_block, struct message *m)
{
    const unsigned char *p;
    if (!take(&body, 1, &p))
        return 0;
    m->letter = *p;
    if (in_block && is_item(m->letter) && !take_oid(&body, &m->subxid))
        return 0;
    return take_fields(&body, m) && body.len == 0;
}

/* ---- frames */

struct deframer {
    unsigned char header[5], *payload;
    size_t header_len, len, room;
};

static size_t payload_len(const struct deframer *d)
{
    return int32(d->header + 1) - 4;
}

static void fail(const char *why)
{
    fprintf(stderr, "%s\n", why);
    exit(1);
}

static void make_room(struct deframer *d, size_t need)
{
    size_t room = 2 * need < payload_len(d) ? 2 * need : payload_len(d);
    d->payload = realloc(d->payload, room);
    if (!d->payload)
        fail("out of memory");
    d->room = room;
}

static int is_complete(const struct deframer *d)
{
    return d->header_len == 5 && d->len == payload_len(d);
}

/* takes bytes up to the end of one frame */
static size_t feed(struct deframer *d, const unsigned char *chunk, size_t len)
{
    size_t taken = 0;
    while (d->header_len < 5 && taken < len) {
        d->header[d->header_len++] = chunk[taken++];
        if (d->header_len == 1 && d->header[0] != 'd' && d->header[0] != 'c')
            fail("unknown frame");
        if (d->header_len == 5 && (int32(d->header + 1) < 4 || payload_len(d) > MAX_FRAME || (d->header[0] == 'c' && payload_len(d))))
            fail("bad length");
    }
    if (d->header_len < 5)
        return taken;
    size_t more = payload_len(d) - d->len;
    if (more > len - taken)
        more = len - taken;
    if (more) {
        if (d->len + more > d->room)
            make_room(d, d->len + more);
        memcpy(d->payload + d->len, chunk + taken, more);
        d->len += more;
    }
    return taken + more;
}

/* the message that a payload carries: that of XLogData, or none in a keepalive */
static int message_of(const struct deframer *d, struct bytes *body)
{
    if (d->len == 18 && d->payload[0] == 'k' && d->payload[17] <= 1)
        return 0;
    if (d->len < 25 || d->payload[0] != 'w')
        fail("unknown server message");
    *body = (struct bytes){d->payload + 25, d->len - 25};
    return 1;
}
