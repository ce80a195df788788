/* libdbi: libdbi HOST PORT USER PASSWORD. */
#include <dbi/dbi.h>
#include <stdio.h>
#include <stdlib.h>
#include <string.h>

static dbi_conn link_;
static char found[200];
static unsigned long long count;

static const char *rows(const char *text) {
    const char *error = NULL;
    dbi_result result = dbi_conn_query(link_, text);
    if (!result) { dbi_conn_error(link_, &error); return error; }
    found[0] = 0;
    count = dbi_result_get_numrows(result);
    if (count && dbi_result_next_row(result)) { char *value = dbi_result_get_as_string_copy_idx(result, 1); snprintf(found, sizeof found, "%s", value); free(value); }
    dbi_result_free(result);
    return NULL;
}
static void show(const char *name, const char *wrong) { printf("%s: %.120s\n", name, wrong ? wrong : "ok"); }
static const char *want(const char *wrong, const char *wanted) { return wrong ? wrong : strcmp(found, wanted) ? found : NULL; }

int main(int argc, char **argv) {
    dbi_inst instance;
    const char *wrong;
    dbi_initialize_r(NULL, &instance);
    link_ = dbi_conn_new_r("mysql", instance);
    if (!link_) return puts("login: no driver"), 1;
    dbi_conn_set_option(link_, "host", argv[1]); dbi_conn_set_option_numeric(link_, "port", atoi(argv[2]));
    dbi_conn_set_option(link_, "username", argv[3]); dbi_conn_set_option(link_, "password", argv[4]);
    dbi_conn_set_option(link_, "dbname", "d"); dbi_conn_set_option(link_, "encoding", "UTF-8");
    if (dbi_conn_connect(link_) < 0) { dbi_conn_error(link_, &wrong); return show("login", wrong), 1; }
    show("select", want(rows("SELECT 41 + 1"), "42"));
    rows("DROP TABLE IF EXISTS d.stacks");
    rows("CREATE TABLE d.stacks (id INT PRIMARY KEY AUTO_INCREMENT, v VARCHAR(40)) ENGINE=InnoDB CHARACTER SET utf8mb4");
    rows("INSERT INTO d.stacks (v) VALUES ('a'), ('b')");
    show("write", want(rows("SELECT COUNT(*) FROM d.stacks"), "2"));
    rows("BEGIN"); rows("INSERT INTO d.stacks (v) VALUES ('c')"); rows("ROLLBACK");
    show("rollback", want(rows("SELECT COUNT(*) FROM d.stacks"), "2"));
    wrong = rows("SELEC 1");
    show("error", wrong && strstr(wrong, "syntax") ? NULL : wrong ? wrong : "no error");
    show("text", want(rows("SELECT 'gr\xc3\xbc\xc3\x9f\x65'"), "gr\xc3\xbc\xc3\x9f\x65"));
    rows("SET SESSION max_recursive_iterations = 30000");
    wrong = rows("WITH RECURSIVE n(i) AS (SELECT 1 UNION ALL SELECT i + 1 FROM n WHERE i < 20000) SELECT i FROM n");
    show("rows", wrong ? wrong : count == 20000 ? NULL : "another number of rows");
    show("ping", dbi_conn_ping(link_) ? NULL : "no answer");
    dbi_conn_close(link_);
    return 0;
}
