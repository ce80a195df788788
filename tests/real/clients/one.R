# RMySQL: Rscript one.R HOST PORT USER PASSWORD.
suppressMessages(library(RMySQL))
words <- commandArgs(TRUE)
link <- tryCatch(dbConnect(MySQL(), host = words[1], port = as.integer(words[2]), user = words[3], password = words[4]),
                 error = function(wrong) { cat("login:", conditionMessage(wrong), "\n"); quit(status = 1) })
one <- function(text) { found <- suppressWarnings(dbGetQuery(link, text)); if (is.null(found) || ncol(found) == 0 || nrow(found) == 0) "" else as.character(found[nrow(found), 1]) }
show <- function(name, test, wanted) {
  found <- tryCatch(test(), error = function(wrong) if (wanted == "1064" && grepl("syntax", conditionMessage(wrong))) "1064" else conditionMessage(wrong))
  cat(name, ": ", if (identical(found, wanted)) "ok" else paste(found, "in place of", wanted), "\n", sep = "")
}
show("select", function() one("SELECT 41 + 1"), "42")
show("write", function() {
  for (text in c("DROP TABLE IF EXISTS d.stacks", "CREATE TABLE d.stacks (id INT PRIMARY KEY AUTO_INCREMENT, v VARCHAR(40)) ENGINE=InnoDB CHARACTER SET utf8mb4", "INSERT INTO d.stacks (v) VALUES ('a'), ('b')")) dbExecute(link, text)
  one("SELECT COUNT(*) FROM d.stacks")
}, "2")
show("rollback", function() { dbExecute(link, "BEGIN"); dbExecute(link, "INSERT INTO d.stacks (v) VALUES ('c')"); dbExecute(link, "ROLLBACK"); one("SELECT COUNT(*) FROM d.stacks") }, "2")
show("error", function() one("SELEC 1"), "1064")
invisible(dbExecute(link, "SET NAMES utf8mb4"))
invisible(dbExecute(link, "SET SESSION max_recursive_iterations = 30000"))
show("rows", function() one("WITH RECURSIVE n(i) AS (SELECT 1 UNION ALL SELECT i + 1 FROM n WHERE i < 20000) SELECT i FROM n"), "20000")
invisible(dbDisconnect(link))
