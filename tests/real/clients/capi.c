/* The C API of MariaDB: capi HOST PORT USER PASSWORD. */
#include <mysql.h>
#include <stdio.h>
#include <stdlib.h>
#include <string.h>

static MYSQL *link_;
static char found[200];

static const char *rows(const char *text, unsigned long *count) {
    if (mysql_query(link_, text)) return mysql_error(link_);
    MYSQL_RES *result = mysql_store_result(link_);
    found[0] = 0;
    if (result) {
        MYSQL_ROW row = mysql_fetch_row(result);
        if (row && row[0]) snprintf(found, sizeof found, "%s", row[0]);
        if (count) *count = (unsigned long)mysql_num_rows(result);
        mysql_free_result(result);
    }
    return NULL;
}

static void show(const char *name, const char *wrong) { printf("%s: %.120s\n", name, wrong ? wrong : "ok"); }
static const char *want(const char *wrong, const char *wanted) { return wrong ? wrong : strcmp(found, wanted) ? found : NULL; }

static const char *prepared(void) {
    MYSQL_STMT *s = mysql_stmt_init(link_);
    const char *text = "SELECT ? + 1";
    static char error[200];
    int a = 41, b = 0;
    MYSQL_BIND in[1], out[1];
    memset(in, 0, sizeof in); memset(out, 0, sizeof out);
    in[0].buffer_type = MYSQL_TYPE_LONG; in[0].buffer = &a;
    out[0].buffer_type = MYSQL_TYPE_LONG; out[0].buffer = &b;
    error[0] = 0;
    if (mysql_stmt_prepare(s, text, strlen(text)) || mysql_stmt_bind_param(s, in) || mysql_stmt_execute(s) || mysql_stmt_bind_result(s, out) || mysql_stmt_fetch(s))
        snprintf(error, sizeof error, "%s", mysql_stmt_error(s));
    else if (b != 42) snprintf(error, sizeof error, "%d", b);
    mysql_stmt_close(s);
    return error[0] ? error : NULL;
}

/* What went wrong with a prepared statement. */
static const char *told(MYSQL_STMT *s, const char *what) {
    static char text[200];
    snprintf(text, sizeof text, "%s: %u %s", what, mysql_stmt_errno(s), mysql_stmt_error(s));
    mysql_stmt_close(s);
    return text;
}

static MYSQL_STMT *prepare(const char *text) {
    MYSQL_STMT *s = mysql_stmt_init(link_);
    mysql_stmt_prepare(s, text, strlen(text));
    return s;
}

static void bind(MYSQL_BIND *to, enum enum_field_types type, void *value, unsigned long length) {
    memset(to, 0, sizeof *to);
    to->buffer_type = type;
    to->buffer = value;
    to->buffer_length = length;
}

/* A row of values of several types is written by one statement, twice, and read by another. */
static const char *types(void) {
    long long i = -5;
    unsigned long long u = 18446744073709551615ull;
    double f = 1.5;
    char c[] = "12345678901234.5678", t[] = "gr\xc3\xbc\xc3\x9f\x65";
    MYSQL_TIME w = {2024, 2, 29, 12, 34, 56, 250000, 0, MYSQL_TIMESTAMP_DATETIME};
    MYSQL_BIND in[7];
    bind(in, MYSQL_TYPE_LONGLONG, &i, 0); bind(in + 1, MYSQL_TYPE_LONGLONG, &u, 0); bind(in + 2, MYSQL_TYPE_DOUBLE, &f, 0);
    bind(in + 3, MYSQL_TYPE_STRING, c, strlen(c)); bind(in + 4, MYSQL_TYPE_STRING, t, strlen(t)); bind(in + 5, MYSQL_TYPE_DATETIME, &w, 0);
    bind(in + 6, MYSQL_TYPE_NULL, NULL, 0);
    in[1].is_unsigned = 1;
    MYSQL_STMT *s = prepare("INSERT INTO d.p (i, u, f, c, t, w, n) VALUES (?, ?, ?, ?, ?, ?, ?)");
    if (mysql_stmt_bind_param(s, in) || mysql_stmt_execute(s)) return told(s, "write");
    i = 6;
    if (mysql_stmt_execute(s)) return told(s, "write again");
    mysql_stmt_close(s);
    MYSQL_BIND out[7];
    long long found_i = 0; unsigned long long found_u = 0; double found_f = 0; char found_c[40] = "", found_t[40] = ""; MYSQL_TIME found_w; my_bool null = 0;
    memset(&found_w, 0, sizeof found_w);
    bind(out, MYSQL_TYPE_LONGLONG, &found_i, 0); bind(out + 1, MYSQL_TYPE_LONGLONG, &found_u, 0); bind(out + 2, MYSQL_TYPE_DOUBLE, &found_f, 0);
    bind(out + 3, MYSQL_TYPE_STRING, found_c, sizeof found_c); bind(out + 4, MYSQL_TYPE_STRING, found_t, sizeof found_t);
    bind(out + 5, MYSQL_TYPE_DATETIME, &found_w, 0); bind(out + 6, MYSQL_TYPE_LONG, &found_f, 0);
    static int n; out[6].buffer = &n; out[6].is_null = &null; out[1].is_unsigned = 1;
    s = prepare("SELECT i, u, f, c, t, w, n FROM d.p WHERE i = ?");
    for (i = -5; i <= 6; i += 11) {
        if (mysql_stmt_bind_param(s, in) || mysql_stmt_execute(s) || mysql_stmt_bind_result(s, out) || mysql_stmt_store_result(s) || mysql_stmt_fetch(s)) return told(s, "read");
        if (found_i != i || found_u != u || found_f != f || strcmp(found_c, c) || strcmp(found_t, t) || found_w.day != 29 || found_w.second_part != 250000 || !null) return told(s, "another row");
        mysql_stmt_free_result(s);
    }
    mysql_stmt_close(s);
    return NULL;
}

/* 20 MB in pieces of a megabyte, and read as one value. */
static const char *blob(void) {
    enum { PIECE = 1 << 20, PIECES = 20 };
    static char piece[PIECE], whole[PIECE * PIECES];
    unsigned long length = 0;
    MYSQL_BIND one;
    bind(&one, MYSQL_TYPE_LONG_BLOB, piece, 0);
    MYSQL_STMT *s = prepare("INSERT INTO d.p (i, b) VALUES (7, ?)");
    if (mysql_stmt_bind_param(s, &one)) return told(s, "bind");
    for (int k = 0; k < PIECES; k++) {
        memset(piece, 'a' + k, PIECE);
        if (mysql_stmt_send_long_data(s, 0, piece, PIECE)) return told(s, "a part");
    }
    if (mysql_stmt_execute(s)) return told(s, "write");
    mysql_stmt_close(s);
    s = prepare("SELECT b FROM d.p WHERE i = 7");
    bind(&one, MYSQL_TYPE_LONG_BLOB, whole, sizeof whole);
    one.length = &length;
    if (mysql_stmt_execute(s) || mysql_stmt_bind_result(s, &one) || mysql_stmt_fetch(s)) return told(s, "read");
    for (int k = 0; k < PIECES; k++)
        if (length != sizeof whole || whole[k * PIECE] != 'a' + k || whole[k * PIECE + PIECE - 1] != 'a' + k) return told(s, "another value");
    mysql_stmt_close(s);
    return NULL;
}

/* A hundred statements at once, which run in turns, three rounds. */
static const char *hundred(void) {
    static MYSQL_STMT *all[100];
    char text[60];
    int a, b;
    MYSQL_BIND in, out;
    bind(&in, MYSQL_TYPE_LONG, &a, 0);
    bind(&out, MYSQL_TYPE_LONG, &b, 0);
    for (int k = 0; k < 100; k++) {
        snprintf(text, sizeof text, "SELECT ? + %d", k);
        all[k] = prepare(text);
    }
    for (int round = 0; round < 3; round++)
        for (int k = 0; k < 100; k++) {
            a = 1000 * round;
            MYSQL_STMT *s = all[k];
            if (mysql_stmt_bind_param(s, &in) || mysql_stmt_execute(s) || mysql_stmt_bind_result(s, &out) || mysql_stmt_store_result(s) || mysql_stmt_fetch(s)) return told(s, "one");
            if (b != a + k) return told(s, "another sum");
            mysql_stmt_free_result(s);
        }
    for (int k = 0; k < 100; k++) mysql_stmt_close(all[k]);
    return NULL;
}

/* What a statement wrote in a transaction is taken back. */
static const char *undone(void) {
    const char *wrong = rows("BEGIN", NULL);
    MYSQL_STMT *s = prepare("INSERT INTO d.p (i) VALUES (99)");
    if (wrong || mysql_stmt_execute(s) || mysql_rollback(link_)) return wrong ? wrong : told(s, "write");
    mysql_stmt_close(s);
    return want(rows("SELECT COUNT(*) FROM d.p WHERE i = 99", NULL), "0");
}

static const char *table(void) {
    const char *wrong = rows("DROP TABLE IF EXISTS d.p", NULL);
    return wrong ? wrong : rows("CREATE TABLE d.p (i BIGINT, u BIGINT UNSIGNED, f DOUBLE, c DECIMAL(20,4), t VARCHAR(60), w DATETIME(6), n INT, b LONGBLOB) CHARACTER SET utf8mb4", NULL);
}

int main(int argc, char **argv) {
    const char *wrong;
    unsigned long count = 0;
    link_ = mysql_init(NULL);
    mysql_options(link_, MYSQL_SET_CHARSET_NAME, "utf8mb4");
    if (!mysql_real_connect(link_, argv[1], argv[3], argv[4], NULL, atoi(argv[2]), NULL, CLIENT_MULTI_STATEMENTS)) return show("login", mysql_error(link_)), 1;
    show("select", want(rows("SELECT 41 + 1", NULL), "42"));
    wrong = rows("DROP TABLE IF EXISTS d.stacks", NULL);
    if (!wrong) wrong = rows("CREATE TABLE d.stacks (id INT PRIMARY KEY AUTO_INCREMENT, v VARCHAR(40)) ENGINE=InnoDB CHARACTER SET utf8mb4", NULL);
    if (!wrong) wrong = rows("INSERT INTO d.stacks (v) VALUES ('a'), ('b')", NULL);
    if (!wrong) wrong = want(rows("SELECT COUNT(*) FROM d.stacks", NULL), "2");
    show("write", wrong);
    wrong = rows("BEGIN", NULL);
    if (!wrong) wrong = rows("INSERT INTO d.stacks (v) VALUES ('c')", NULL);
    if (!wrong && mysql_rollback(link_)) wrong = mysql_error(link_);
    show("rollback", wrong ? wrong : want(rows("SELECT COUNT(*) FROM d.stacks", NULL), "2"));
    show("error", rows("SELEC 1", NULL) && mysql_errno(link_) == 1064 ? NULL : "no error");
    show("text", want(rows("SELECT 'gr\xc3\xbc\xc3\x9f\x65'", NULL), "gr\xc3\xbc\xc3\x9f\x65"));
    rows("SET SESSION max_recursive_iterations = 30000", NULL);
    wrong = rows("WITH RECURSIVE n(i) AS (SELECT 1 UNION ALL SELECT i + 1 FROM n WHERE i < 20000) SELECT i FROM n", &count);
    show("rows", wrong ? wrong : count == 20000 ? NULL : "another number of rows");
    show("prepared", prepared());
    wrong = table();
    show("types", wrong ? wrong : types());
    show("blob", blob());
    show("hundred", hundred());
    show("undone", undone());
    show("ping", mysql_ping(link_) ? mysql_error(link_) : NULL);
    /* What is refused or silent shifts no later reply. */
    show("after", want(rows("SELECT 43", NULL), "43"));
    mysql_close(link_);
    return 0;
}
