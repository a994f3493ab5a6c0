/* A prepare and a fulfil as they would be kept in SQLite: statements prepared once, a transaction each. */
#include "rivals.h"

#include <sqlite3.h>
#include <stdio.h>
#include <stdlib.h>
#include <string.h>

enum statement {
    BEGIN,
    COMMIT,
    ROLLBACK,
    JOIN,
    ACCOUNT_BY_NAME,
    ACCOUNT_BY_NUMBER,
    MOVE,
    PUT,
    BY_ID,
    LAST,
    COMMITTED,
    TAKE_AWAY,
    RESET,
    STATEMENTS
};

static const char *const SQL[STATEMENTS] = {
    [BEGIN] = "BEGIN",
    [COMMIT] = "COMMIT",
    [ROLLBACK] = "ROLLBACK",
    [JOIN] = "INSERT INTO accounts VALUES (?1, ?2, ?3, ?4, ?4)",
    [ACCOUNT_BY_NAME] = "SELECT number, cap, position FROM accounts WHERE name = ?1",
    [ACCOUNT_BY_NUMBER] = "SELECT name FROM accounts WHERE number = ?1",
    [MOVE] = "UPDATE accounts SET position = position + ?2 WHERE number = ?1",
    [PUT] = "INSERT INTO transfers VALUES (?1, ?2, ?3, ?4, ?5, ?6, 0, ?7, ?8, ?9, NULL, ?10)",
    [BY_ID] = "SELECT number, state, payee, amount FROM transfers WHERE id = ?1",
    [LAST] = "SELECT max(number) FROM transfers",
    [COMMITTED] = "UPDATE transfers SET state = 3, ended_by = 1, fulfilment = ?2 WHERE number = ?1",
    [TAKE_AWAY] = "DELETE FROM transfers WHERE number >= ?1",
    [RESET] = "UPDATE accounts SET position = first",
};

static const char SCHEMA[] =
    "CREATE TABLE accounts (number INTEGER PRIMARY KEY, name TEXT UNIQUE, cap INTEGER, position INTEGER, first INTEGER);"
    "CREATE TABLE transfers (number INTEGER PRIMARY KEY, id BLOB, state INTEGER, payer INTEGER, payee INTEGER,"
    " ended_by INTEGER, code INTEGER, amount INTEGER, expiration INTEGER, condition BLOB, fulfilment BLOB, hash BLOB);"
    "CREATE UNIQUE INDEX transfer_by_id ON transfers (id);";

struct sqlite_book {
    sqlite3 *db;
    sqlite3_stmt *statements[STATEMENTS];
};

static void hold(const struct sqlite_book *b, int is_good)
{
    if (is_good)
        return;
    fprintf(stderr, "SQLite: %s\n", sqlite3_errmsg(b->db));
    exit(1);
}

struct sqlite_book *sqlite_book_new(void)
{
    struct sqlite_book *b = calloc(1, sizeof *b);
    if (b == NULL)
        exit(2);
    hold(b, sqlite3_open(":memory:", &b->db) == SQLITE_OK);
    hold(b, sqlite3_exec(b->db, SCHEMA, NULL, NULL, NULL) == SQLITE_OK);
    for (int k = 0; k < STATEMENTS; k++)
        hold(b, sqlite3_prepare_v3(b->db, SQL[k], -1, SQLITE_PREPARE_PERSISTENT, &b->statements[k], NULL) == SQLITE_OK);
    return b;
}

void sqlite_book_free(struct sqlite_book *b)
{
    for (int k = 0; k < STATEMENTS; k++)
        sqlite3_finalize(b->statements[k]);
    sqlite3_close(b->db);
    free(b);
}

/* A statement that gives no row. */
static void done(const struct sqlite_book *b, enum statement k)
{
    hold(b, sqlite3_step(b->statements[k]) == SQLITE_DONE);
    sqlite3_reset(b->statements[k]);
}

/* The first row of a statement, or NULL; it is to be reset when it was read. */
static sqlite3_stmt *row(const struct sqlite_book *b, enum statement k)
{
    sqlite3_stmt *s = b->statements[k];
    int status = sqlite3_step(s);
    hold(b, status == SQLITE_ROW || status == SQLITE_DONE);
    if (status == SQLITE_ROW)
        return s;
    sqlite3_reset(s);
    return NULL;
}

static void bind_bytes(sqlite3_stmt *s, int at, const uint8_t *bytes, int n)
{
    sqlite3_bind_blob(s, at, bytes, n, SQLITE_STATIC);
}

void sqlite_book_join(struct sqlite_book *b, int64_t number, const char *name, int64_t cap, int64_t position)
{
    sqlite3_stmt *s = b->statements[JOIN];
    sqlite3_bind_int64(s, 1, number);
    sqlite3_bind_text(s, 2, name, -1, SQLITE_STATIC);
    sqlite3_bind_int64(s, 3, cap);
    sqlite3_bind_int64(s, 4, position);
    done(b, JOIN);
}

void sqlite_book_begin(struct sqlite_book *b)
{
    done(b, BEGIN);
}

void sqlite_book_end(struct sqlite_book *b)
{
    done(b, COMMIT);
}

void sqlite_book_put(struct sqlite_book *b, const struct sqlite_transfer *t)
{
    sqlite3_stmt *s = b->statements[PUT];
    const int64_t numbers[] = {t->state, t->payer, t->payee, t->ended_by, t->amount, t->expiration};
    sqlite3_bind_int64(s, 1, t->number);
    bind_bytes(s, 2, t->id, 16);
    for (int k = 0; k < 6; k++)
        sqlite3_bind_int64(s, 3 + k, numbers[k]);
    bind_bytes(s, 9, t->condition, 32);
    bind_bytes(s, 10, t->hash, 32);
    done(b, PUT);
}

static void move(struct sqlite_book *b, int64_t account, int64_t amount)
{
    sqlite3_bind_int64(b->statements[MOVE], 1, account);
    sqlite3_bind_int64(b->statements[MOVE], 2, amount);
    done(b, MOVE);
}

void sqlite_book_restore(struct sqlite_book *b, int64_t from)
{
    done(b, BEGIN);
    sqlite3_bind_int64(b->statements[TAKE_AWAY], 1, from);
    done(b, TAKE_AWAY);
    done(b, RESET);
    done(b, COMMIT);
}

struct account {
    int64_t number, cap, position;
};

static int account_by_name(const struct sqlite_book *b, const char *name, struct account *a)
{
    sqlite3_bind_text(b->statements[ACCOUNT_BY_NAME], 1, name, -1, SQLITE_STATIC);
    sqlite3_stmt *s = row(b, ACCOUNT_BY_NAME);
    if (s == NULL)
        return 0;
    a->number = sqlite3_column_int64(s, 0);
    a->cap = sqlite3_column_int64(s, 1);
    a->position = sqlite3_column_int64(s, 2);
    sqlite3_reset(s);
    return 1;
}

static int refused(struct sqlite_book *b, int number)
{
    done(b, ROLLBACK);
    return number;
}

static int64_t last_number(const struct sqlite_book *b)
{
    sqlite3_stmt *s = row(b, LAST);
    int64_t last = sqlite3_column_int64(s, 0);
    sqlite3_reset(s);
    return last;
}

static int is_held(const struct sqlite_book *b, const uint8_t *id)
{
    bind_bytes(b->statements[BY_ID], 1, id, 16);
    sqlite3_stmt *s = row(b, BY_ID);
    if (s != NULL)
        sqlite3_reset(s);
    return s != NULL;
}

int sqlite_book_prepare(struct sqlite_book *b, const struct sqlite_transfer *t, const char *payer, const char *payee,
                        int64_t now, int64_t places)
{
    struct account from, to;
    struct sqlite_transfer added = *t;
    done(b, BEGIN);
    if (!account_by_name(b, payer, &from))
        return refused(b, 2);
    if (!account_by_name(b, payee, &to))
        return refused(b, 3);
    if (from.number == to.number)
        return refused(b, 4);
    if (is_held(b, t->id))
        return refused(b, 6);
    if (t->expiration <= now)
        return refused(b, 7);
    added.number = last_number(b) + 1;
    if (added.number > places)
        return refused(b, 9);
    if (from.position + t->amount > from.cap)
        return refused(b, 10);
    added.state = 2;
    added.payer = from.number;
    added.payee = to.number;
    sqlite_book_put(b, &added);
    move(b, from.number, t->amount);
    done(b, COMMIT);
    return 0;
}

static int is_named(const struct sqlite_book *b, int64_t account, const char *name)
{
    sqlite3_bind_int64(b->statements[ACCOUNT_BY_NUMBER], 1, account);
    sqlite3_stmt *s = row(b, ACCOUNT_BY_NUMBER);
    int is = s != NULL && strcmp((const char *)sqlite3_column_text(s, 0), name) == 0;
    if (s != NULL)
        sqlite3_reset(s);
    return is;
}

int sqlite_book_fulfil(struct sqlite_book *b, const char *sender, const uint8_t id[16], const uint8_t fulfilment[32])
{
    done(b, BEGIN);
    bind_bytes(b->statements[BY_ID], 1, id, 16);
    sqlite3_stmt *s = row(b, BY_ID);
    if (s == NULL)
        return refused(b, 11);
    int64_t number = sqlite3_column_int64(s, 0), state = sqlite3_column_int64(s, 1);
    int64_t payee = sqlite3_column_int64(s, 2), amount = sqlite3_column_int64(s, 3);
    sqlite3_reset(s);
    if (!is_named(b, payee, sender))
        return refused(b, 12);
    if (state != 2)
        return refused(b, 13);
    sqlite3_bind_int64(b->statements[COMMITTED], 1, number);
    bind_bytes(b->statements[COMMITTED], 2, fulfilment, 32);
    done(b, COMMITTED);
    move(b, payee, -amount);
    done(b, COMMIT);
    return 0;
}
