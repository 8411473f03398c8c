/* The subscriber by hand in C over libsqlite3: baseline FILE [DATABASE] reads the bytes of one session and prints the rows and the position as
 * `pgsub apply --raw FILE` does. Its database is in memory, or in a new file with a write-ahead log that is synced at each commit. It has the
 * tables of pgsub's store, changed by statements that are prepared once, and a SQL transaction for each commit. It does less than pgsub: tables
 * have a key, cells are text or null, there is no Truncate, texts are printed without escapes, any fault ends the program, nothing limits what
 * is open. */
#include "../pgoutput.h"
#include <fcntl.h>
#include <sqlite3.h>
#include <unistd.h>

static void out_of_memory(void)
{
    fail("out of memory");
}

struct buffer {
    unsigned char *at;
    size_t len, room;
};

static void append(struct buffer *b, const void *bytes, size_t len)
{
    if (b->room - b->len < len) {
        b->room = 2 * (b->len + len);
        b->at = realloc(b->at, b->room);
        if (!b->at)
            out_of_memory();
    }
    memcpy(b->at + b->len, bytes, len);
    b->len += len;
}

static struct bytes bytes_of(const struct buffer *b)
{
    return (struct bytes){b->at, b->len};
}

static int is_equal(struct bytes left, struct bytes right)
{
    return left.len == right.len && memcmp(left.at, right.at, left.len) == 0;
}

/* ---- the store */

static const char *const tables =
    "CREATE TABLE rel (oid INTEGER PRIMARY KEY NOT NULL, nsp TEXT NOT NULL, name TEXT NOT NULL, letter INTEGER NOT NULL, cols BLOB NOT NULL) STRICT;"
    "CREATE TABLE held (oid INTEGER NOT NULL, ident BLOB NOT NULL, body BLOB NOT NULL, copies INTEGER NOT NULL, PRIMARY KEY (oid, ident)) STRICT;"
    "CREATE TABLE pos (id INTEGER PRIMARY KEY NOT NULL CHECK (id = 0), lsn BLOB NOT NULL) STRICT;"
    "INSERT INTO pos (id, lsn) VALUES (0, x'0000000000000000')";

enum { BEGIN, COMMIT, DEFINE, FIND, ADD, SET, PUT, DELETE, REACH, READ, STATEMENTS };

static const char *const statements[STATEMENTS] = {
    [BEGIN] = "BEGIN",
    [COMMIT] = "COMMIT",
    [DEFINE] = "INSERT INTO rel (oid, nsp, name, letter, cols) VALUES (?1, ?2, ?3, ?4, ?5) ON CONFLICT (oid) DO UPDATE SET nsp = excluded.nsp,"
               " name = excluded.name, letter = excluded.letter, cols = excluded.cols",
    [FIND] = "SELECT body, copies FROM held WHERE oid = ?1 AND ident = ?2",
    [ADD] = "INSERT INTO held (oid, ident, body, copies) VALUES (?1, ?2, ?3, 1)",
    [SET] = "UPDATE held SET body = ?3 WHERE oid = ?1 AND ident = ?2",
    [PUT] = "INSERT INTO held (oid, ident, body, copies) VALUES (?1, ?2, ?3, 1) ON CONFLICT (oid, ident) DO UPDATE SET body = excluded.body,"
            " copies = excluded.copies",
    [DELETE] = "DELETE FROM held WHERE oid = ?1 AND ident = ?2",
    [REACH] = "UPDATE pos SET lsn = ?1 WHERE id = 0",
    [READ] = "SELECT held.oid, rel.nsp, rel.name, held.body, held.copies FROM held JOIN rel ON rel.oid = held.oid ORDER BY held.oid, held.ident",
};

static sqlite3 *database;
static sqlite3_stmt *prepared[STATEMENTS];

static void check(int code)
{
    if (code != SQLITE_OK && code != SQLITE_DONE && code != SQLITE_ROW)
        fail(sqlite3_errmsg(database));
}

static void open_store(const char *path)
{
    check(sqlite3_open(path, &database));
    check(sqlite3_exec(database, "PRAGMA journal_mode = wal; PRAGMA synchronous = full", 0, 0, 0));
    check(sqlite3_exec(database, tables, 0, 0, 0));
    for (int k = 0; k < STATEMENTS; k++)
        check(sqlite3_prepare_v3(database, statements[k], -1, SQLITE_PREPARE_PERSISTENT, &prepared[k], 0));
}

static void run(int statement)
{
    check(sqlite3_step(prepared[statement]));
    check(sqlite3_reset(prepared[statement]));
}

static void bind_blob(int statement, int parameter, struct bytes value)
{
    check(sqlite3_bind_blob64(prepared[statement], parameter, value.at, value.len, SQLITE_STATIC));
}

static void bind_text(int statement, int parameter, struct bytes value)
{
    check(sqlite3_bind_text(prepared[statement], parameter, (const char *)value.at, value.len, SQLITE_STATIC));
}

static void bind_row(int statement, uint32_t oid, struct bytes identity)
{
    check(sqlite3_bind_int64(prepared[statement], 1, oid));
    bind_blob(statement, 2, identity);
}

static void put_row(int statement, uint32_t oid, struct bytes identity, struct bytes body)
{
    bind_row(statement, oid, identity);
    bind_blob(statement, 3, body);
    run(statement);
}

static void delete_row(uint32_t oid, struct bytes identity)
{
    bind_row(DELETE, oid, identity);
    run(DELETE);
}

/* whether there is a row; its body, copied, since the statement is given back */
static int find_row(uint32_t oid, struct bytes identity, struct buffer *body)
{
    sqlite3_stmt *find = prepared[FIND];
    bind_row(FIND, oid, identity);
    int code = sqlite3_step(find);
    check(code);
    body->len = 0;
    if (code == SQLITE_ROW)
        append(body, sqlite3_column_blob(find, 0), sqlite3_column_bytes(find, 0));
    check(sqlite3_reset(find));
    return code == SQLITE_ROW;
}

/* ---- relations */

struct relation {
    uint32_t oid;
    int is_stored;
    unsigned width;
    unsigned char identity, key[MAX_COLUMNS];
    struct buffer namespace, name, encoded_columns;
};

static struct relation *relations;
static size_t relations_len;

static struct relation *relation_of(uint32_t oid)
{
    for (size_t k = 0; k < relations_len; k++)
        if (relations[k].oid == oid)
            return &relations[k];
    return 0;
}

static struct relation *new_relation(uint32_t oid)
{
    relations = realloc(relations, (relations_len + 1) * sizeof *relations);
    if (!relations)
        out_of_memory();
    struct relation *r = &relations[relations_len++];
    *r = (struct relation){.oid = oid};
    return r;
}

static void set(struct buffer *b, struct bytes value)
{
    b->len = 0;
    append(b, value.at, value.len);
}

static void define(const struct message *m)
{
    struct relation *r = relation_of(m->oid);
    if (!r)
        r = new_relation(m->oid);
    else if (r->identity == m->identity && is_equal(bytes_of(&r->namespace), m->namespace) && is_equal(bytes_of(&r->name), m->name)
             && is_equal(bytes_of(&r->encoded_columns), m->encoded_columns))
        return;
    int keys = 0;
    for (unsigned k = 0; k < m->columns_len; k++)
        keys += r->key[k] = m->columns[k].key;
    if (!keys || (m->identity != 'd' && m->identity != 'i'))
        fail("a relation without a key");
    r->width = m->columns_len;
    r->identity = m->identity;
    r->is_stored = 0;
    set(&r->namespace, m->namespace);
    set(&r->name, m->name);
    set(&r->encoded_columns, m->encoded_columns);
}

/* the relation of a change, whose definition is in the store then */
static struct relation *changed_relation(uint32_t oid)
{
    struct relation *r = relation_of(oid);
    if (!r)
        fail("unknown relation");
    if (r->is_stored)
        return r;
    check(sqlite3_bind_int64(prepared[DEFINE], 1, r->oid));
    bind_text(DEFINE, 2, bytes_of(&r->namespace));
    bind_text(DEFINE, 3, bytes_of(&r->name));
    check(sqlite3_bind_int(prepared[DEFINE], 4, r->identity));
    bind_blob(DEFINE, 5, bytes_of(&r->encoded_columns));
    run(DEFINE);
    r->is_stored = 1;
    return r;
}

/* ---- changes */

static void append_cell(struct buffer *b, const struct cell *cell)
{
    uint32_t len = cell->value.len;
    unsigned char head[] = {cell->kind, len >> 24, len >> 16, len >> 8, len};
    if (cell->kind == 'n') {
        append(b, head, 1);
        return;
    }
    append(b, head, sizeof head);
    append(b, cell->value.at, len);
}

static struct bytes identity_of(const struct relation *r, const struct tuple *tuple, struct buffer *b)
{
    if (tuple->width != r->width)
        fail("a tuple has another width than its relation");
    b->len = 0;
    for (unsigned k = 0; k < r->width; k++) {
        if (!r->key[k])
            continue;
        if (tuple->cells[k].kind == 'u')
            fail("unknown identity");
        append_cell(b, &tuple->cells[k]);
    }
    return bytes_of(b);
}

/* the encoding of a row whose unchanged cells are those of a stored one */
static struct bytes filled(struct tuple *row, struct bytes stored, struct buffer *b)
{
    static struct tuple old;
    if (!take_tuple(&stored, &old) || old.width != row->width)
        fail("a stored row can't be read");
    b->len = 0;
    append(b, row->encoded.at, 2);
    for (unsigned k = 0; k < row->width; k++) {
        if (row->cells[k].kind == 'u')
            row->cells[k] = old.cells[k];
        append_cell(b, &row->cells[k]);
    }
    return bytes_of(b);
}

static int has_unchanged(const struct tuple *row)
{
    for (unsigned k = 0; k < row->width; k++)
        if (row->cells[k].kind == 'u')
            return 1;
    return 0;
}

static void insert(struct message *m)
{
    static struct buffer identity;
    const struct relation *r = changed_relation(m->oid);
    if (has_unchanged(&m->row))
        fail("an unchanged cell in an Insert");
    put_row(ADD, r->oid, identity_of(r, &m->row, &identity), m->row.encoded);
}

static void update(struct message *m)
{
    static struct buffer old_identity, new_identity, stored, body;
    const struct relation *r = changed_relation(m->oid);
    struct bytes old = identity_of(r, m->kind == 'N' ? &m->row : &m->old, &old_identity);
    struct bytes row = m->row.encoded;
    if (!has_unchanged(&m->row) && is_equal(old, identity_of(r, &m->row, &new_identity))) {
        put_row(SET, r->oid, old, row);
        return;
    }
    if (!find_row(r->oid, old, &stored))
        return;
    if (has_unchanged(&m->row))
        row = filled(&m->row, bytes_of(&stored), &body);
    struct bytes new = identity_of(r, &m->row, &new_identity);
    if (is_equal(old, new)) {
        put_row(PUT, r->oid, old, row);
        return;
    }
    delete_row(r->oid, old);
    put_row(ADD, r->oid, new, row);
}

static void delete(struct message *m)
{
    static struct buffer identity;
    const struct relation *r = changed_relation(m->oid);
    delete_row(r->oid, identity_of(r, &m->old, &identity));
}

static void apply(struct message *m)
{
    if (m->letter == 'I')
        insert(m);
    else if (m->letter == 'U')
        update(m);
    else if (m->letter == 'D')
        delete(m);
}

/* ---- open transactions. An item is its length and its message without the xid of a block. As in PostgreSQL's own subscriber, each
 * subtransaction has an entry with the offset of its first item, and is looked for from the last one back. */

struct first {
    uint32_t subxid;
    size_t at;
};

struct transaction {
    uint32_t xid;
    struct buffer items, firsts;
};

static struct transaction *transactions;
static size_t transactions_len, transactions_room;
static uint64_t position;

static struct transaction *open_transaction_of(uint32_t xid)
{
    for (size_t k = 0; k < transactions_len; k++)
        if (transactions[k].xid == xid)
            return &transactions[k];
    return 0;
}

static struct transaction *open_transaction(uint32_t xid)
{
    if (transactions_len == transactions_room) {
        transactions_room = 2 * transactions_room + 16;
        transactions = realloc(transactions, transactions_room * sizeof *transactions);
        if (!transactions)
            out_of_memory();
    }
    transactions[transactions_len] = (struct transaction){.xid = xid};
    return &transactions[transactions_len++];
}

static void close_transaction(struct transaction *t)
{
    free(t->items.at);
    free(t->firsts.at);
    *t = transactions[--transactions_len];
}

/* the entry of a subtransaction */
static struct first *first_of(const struct transaction *t, uint32_t subxid)
{
    struct first *firsts = (struct first *)t->firsts.at;
    for (size_t k = t->firsts.len / sizeof *firsts; k > 0; k--)
        if (firsts[k - 1].subxid == subxid)
            return &firsts[k - 1];
    return 0;
}

static void push(struct transaction *t, uint32_t subxid, struct bytes body, size_t xid_len)
{
    if (subxid != t->xid && !first_of(t, subxid)) {
        struct first first = {subxid, t->items.len};
        append(&t->firsts, &first, sizeof first);
    }
    uint32_t len = body.len - xid_len;
    append(&t->items, &len, sizeof len);
    append(&t->items, body.at, 1);
    append(&t->items, body.at + 1 + xid_len, len - 1);
}

static void roll_back(struct transaction *t, uint32_t subxid)
{
    struct first *first = first_of(t, subxid);
    if (!first)
        return;
    t->items.len = first->at;
    t->firsts.len = (unsigned char *)first - t->firsts.at;
}

static void reach(uint64_t end)
{
    unsigned char lsn[8];
    for (int k = 0; k < 8; k++)
        lsn[k] = end >> (56 - 8 * k);
    bind_blob(REACH, 1, (struct bytes){lsn, sizeof lsn});
    run(REACH);
    position = end;
}

/* Applies what is left of a transaction. A repeat's definitions are read, and its changes passed over. */
static void commit(struct transaction *t, uint64_t end, struct message *m)
{
    int is_repeat = end <= position;
    if (!is_repeat)
        run(BEGIN);
    uint32_t len;
    for (size_t at = 0; at < t->items.len; at += len) {
        memcpy(&len, t->items.at + at, sizeof len);
        at += sizeof len;
        read_message((struct bytes){t->items.at + at, len}, 0, m);
        if (m->letter == 'R')
            define(m);
        else if (!is_repeat)
            apply(m);
    }
    close_transaction(t);
    if (is_repeat)
        return;
    reach(end);
    run(COMMIT);
}

/* ---- messages */

enum { OUTSIDE, IN_PAIR, IN_BLOCK };

static int where;
static uint32_t current;
static uint64_t final_lsn;

static struct transaction *known_transaction(uint32_t xid)
{
    struct transaction *t = open_transaction_of(xid);
    if (!t)
        fail("a transaction isn't open");
    return t;
}

static void expect(int place)
{
    if (where != place)
        fail("a message out of order");
}

static void start_block(const struct message *m)
{
    expect(OUTSIDE);
    struct transaction *t = open_transaction_of(m->xid);
    if ((t == 0) != m->first)
        fail("a message out of order");
    if (!t)
        open_transaction(m->xid);
    where = IN_BLOCK;
    current = m->xid;
}

static void begin(const struct message *m)
{
    expect(OUTSIDE);
    open_transaction(m->xid);
    where = IN_PAIR;
    current = m->xid;
    final_lsn = m->lsn;
}

static void commit_pair(struct message *m)
{
    expect(IN_PAIR);
    if (m->lsn != final_lsn)
        fail("another final LSN in Commit than in Begin");
    where = OUTSIDE;
    commit(known_transaction(current), m->end, m);
}

static void abort_stream(const struct message *m)
{
    expect(OUTSIDE);
    struct transaction *t = open_transaction_of(m->xid);
    if (!t)
        return;
    if (m->xid == m->subxid)
        close_transaction(t);
    else
        roll_back(t, m->subxid);
}

static void follow(struct bytes body, struct message *m)
{
    if (!read_message(body, where == IN_BLOCK, m))
        fail("a message can't be read");
    switch (m->letter) {
    case 'B':
        begin(m);
        break;
    case 'C':
        commit_pair(m);
        break;
    case 'S':
        start_block(m);
        break;
    case 'E':
        expect(IN_BLOCK);
        where = OUTSIDE;
        break;
    case 'c':
        expect(OUTSIDE);
        commit(known_transaction(m->xid), m->end, m);
        break;
    case 'A':
        abort_stream(m);
        break;
    default:
        if (where == OUTSIDE)
            fail("a message out of order");
        push(known_transaction(current), where == IN_BLOCK ? m->subxid : current, body, where == IN_BLOCK ? 4 : 0);
    }
}

/* ---- the program */

static void print_text(struct bytes text)
{
    putchar('"');
    fwrite(text.at, 1, text.len, stdout);
    putchar('"');
}

static void print_row(struct tuple *row)
{
    sqlite3_stmt *read = prepared[READ];
    struct bytes body = {sqlite3_column_blob(read, 3), sqlite3_column_bytes(read, 3)};
    if (!take_tuple(&body, row))
        fail("a stored row can't be read");
    printf("[\"%s\",\"%s\",[", sqlite3_column_text(read, 1), sqlite3_column_text(read, 2));
    for (unsigned k = 0; k < row->width; k++) {
        if (k)
            putchar(',');
        if (row->cells[k].kind == 'n')
            fputs("null", stdout);
        else
            print_text(row->cells[k].value);
    }
    printf("],%lld]\n", sqlite3_column_int64(read, 4));
}

static void print_rows(struct tuple *row)
{
    int code;
    while ((code = sqlite3_step(prepared[READ])) == SQLITE_ROW)
        print_row(row);
    check(code);
    printf("position %X/%X\n", (unsigned)(position >> 32), (unsigned)position);
}

static void read_chunk(struct deframer *d, const unsigned char *chunk, size_t len, struct message *m)
{
    for (size_t taken = 0;;) {
        taken += feed(d, chunk + taken, len - taken);
        if (!is_complete(d))
            return;
        struct bytes body;
        if (d->header[0] == 'd' && message_of(d, &body))
            follow(body, m);
        d->header_len = d->len = 0;
    }
}

int main(int argc, char **argv)
{
    static unsigned char chunk[65536];
    static struct message m;
    struct deframer d = {0};
    if (argc != 2 && argc != 3)
        fail("usage: baseline FILE [DATABASE]");
    int file = open(argv[1], O_RDONLY);
    if (file < 0)
        fail("the file can't be opened");
    open_store(argc == 3 ? argv[2] : ":memory:");
    ssize_t len;
    while ((len = read(file, chunk, sizeof chunk)) > 0)
        read_chunk(&d, chunk, len, &m);
    if (len < 0)
        fail("the file can't be read");
    print_rows(&m.row);
    return 0;
}
