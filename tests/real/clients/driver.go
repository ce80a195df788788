// go-sql-driver and mymysql, through database/sql: driver KIND HOST PORT USER PASSWORD.
package main

import (
	"context"
	"database/sql"
	"fmt"
	"os"
	"strings"

	_ "github.com/go-sql-driver/mysql"
	_ "github.com/ziutek/mymysql/godrv"
)

func show(name string, test func() error) {
	text := "ok"
	if wrong := test(); wrong != nil {
		text = strings.ReplaceAll(wrong.Error(), "\n", " ")
		if len(text) > 120 {
			text = text[:120]
		}
	}
	fmt.Printf("%s: %s\n", name, text)
}

func want(found, wanted interface{}) error {
	if fmt.Sprint(found) == fmt.Sprint(wanted) {
		return nil
	}
	return fmt.Errorf("%v in place of %v", found, wanted)
}

func main() {
	kind, host, port, user, password := os.Args[1], os.Args[2], os.Args[3], os.Args[4], os.Args[5]
	source := fmt.Sprintf("%s:%s@tcp(%s:%s)/?charset=utf8mb4", user, password, host, port)
	driver := "mysql"
	switch kind {
	case "mymysql":
		driver, source = "mymysql", fmt.Sprintf("tcp:%s:%s*d/%s/%s", host, port, user, password)
	case "interpolated":
		source += "&interpolateParams=true"
	}
	pool, fault := sql.Open(driver, source)
	if fault != nil {
		fmt.Println("login:", fault)
		return
	}
	pool.SetMaxOpenConns(1)
	all := context.Background()
	one := func(text string, values ...interface{}) (found string, fault error) {
		fault = pool.QueryRowContext(all, text, values...).Scan(&found)
		return
	}
	show("select", func() error {
		found, fault := one("SELECT 41 + 1")
		if fault != nil {
			return fault
		}
		return want(found, 42)
	})
	show("write", func() error {
		for _, text := range []string{"DROP TABLE IF EXISTS d.stacks", "CREATE TABLE d.stacks (id INT PRIMARY KEY AUTO_INCREMENT, v VARCHAR(40)) ENGINE=InnoDB CHARACTER SET utf8mb4", "INSERT INTO d.stacks (v) VALUES ('a'), ('b')"} {
			if _, fault := pool.Exec(text); fault != nil {
				return fault
			}
		}
		found, fault := one("SELECT COUNT(*) FROM d.stacks")
		if fault != nil {
			return fault
		}
		return want(found, 2)
	})
	show("rollback", func() error {
		work, fault := pool.Begin()
		if fault != nil {
			return fault
		}
		if _, fault = work.Exec("INSERT INTO d.stacks (v) VALUES ('c')"); fault != nil {
			return fault
		}
		if fault = work.Rollback(); fault != nil {
			return fault
		}
		found, fault := one("SELECT COUNT(*) FROM d.stacks")
		if fault != nil {
			return fault
		}
		return want(found, 2)
	})
	show("error", func() error {
		_, fault := one("SELEC 1")
		if fault == nil || !strings.Contains(fault.Error(), "syntax") {
			return fmt.Errorf("%v", fault)
		}
		return nil
	})
	show("text", func() error {
		found, fault := one("SELECT 'grüße'")
		if fault != nil {
			return fault
		}
		return want(found, "grüße")
	})
	pool.Exec("SET SESSION max_recursive_iterations = 30000")
	show("rows", func() error {
		found, fault := pool.Query("WITH RECURSIVE n(i) AS (SELECT 1 UNION ALL SELECT i + 1 FROM n WHERE i < 20000) SELECT i FROM n")
		if fault != nil {
			return fault
		}
		defer found.Close()
		count := 0
		for found.Next() {
			count++
		}
		return want(count, 20000)
	})
	show("prepared", func() error {
		found, fault := one("SELECT ? + 1", 41)
		if fault != nil {
			return fault
		}
		return want(strings.TrimSuffix(found, ".0"), 42)
	})
	show("ping", func() error { return pool.Ping() })
	if kind == "mysql" {
		statements(pool)
	}
}

// Statements that are prepared at the server: values of several types, 20 MB, a hundred at once, a transaction.
func statements(pool *sql.DB) {
	for _, text := range []string{"DROP TABLE IF EXISTS d.p", "CREATE TABLE d.p (i BIGINT, u BIGINT UNSIGNED, f DOUBLE, c DECIMAL(20,4), t VARCHAR(60), w DATETIME(6), n INT, b LONGBLOB) CHARACTER SET utf8mb4"} {
		pool.Exec(text)
	}
	show("types", func() error {
		s, fault := pool.Prepare("INSERT INTO d.p (i, u, f, c, t, w, n) VALUES (?, ?, ?, ?, ?, ?, ?)")
		for _, i := range []int64{-5, 6} {
			if fault != nil {
				return fault
			}
			_, fault = s.Exec(i, uint64(18446744073709551615), 1.5, "12345678901234.5678", "grüße", "2024-02-29 12:34:56.250000", nil)
		}
		s, fault = pool.Prepare("SELECT i, u, f, c, t, w, n FROM d.p WHERE i = ?")
		for _, i := range []int64{-5, 6} {
			var found int64
			var u uint64
			var f float64
			var c, t, w string
			var n sql.NullInt64
			if fault == nil {
				fault = s.QueryRow(i).Scan(&found, &u, &f, &c, &t, &w, &n)
			}
			if fault == nil {
				fault = want(fmt.Sprint(found, u, f, c, t, w, n.Valid), fmt.Sprint(i, uint64(18446744073709551615), 1.5, "12345678901234.5678", "grüße", "2024-02-29 12:34:56.250000", false))
			}
		}
		return fault
	})
	show("blob", func() error {
		whole := ""
		for k := 0; k < 20; k++ {
			whole += strings.Repeat(string(rune('a'+k)), 1<<20)
		}
		var found string
		_, fault := pool.Exec("INSERT INTO d.p (i, b) VALUES (7, ?)", []byte(whole))
		if fault == nil {
			fault = pool.QueryRow("SELECT b FROM d.p WHERE i = ?", 7).Scan(&found)
		}
		if fault != nil {
			return fault
		}
		return want(found == whole, true)
	})
	show("hundred", func() error {
		all := make([]*sql.Stmt, 100)
		var fault error
		for k := range all {
			if all[k], fault = pool.Prepare(fmt.Sprintf("SELECT ? + %d", k)); fault != nil {
				return fault
			}
		}
		for k := 0; k < 300; k++ {
			var found float64
			if fault = all[k%100].QueryRow(1000 * (k / 100)).Scan(&found); fault != nil {
				return fault
			}
			if fault = want(found, float64(1000*(k/100)+k%100)); fault != nil {
				return fault
			}
		}
		return nil
	})
	show("undone", func() error {
		work, fault := pool.Begin()
		if fault == nil {
			_, fault = work.Exec("INSERT INTO d.p (i) VALUES (?)", 99)
		}
		if fault == nil {
			fault = work.Rollback()
		}
		var found int
		if fault == nil {
			fault = pool.QueryRow("SELECT COUNT(*) FROM d.p WHERE i = ?", 99).Scan(&found)
		}
		if fault != nil {
			return fault
		}
		return want(found, 0)
	})
}
