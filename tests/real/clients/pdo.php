<?php // mysqli and PDO: php pdo.php mysqli|pdo HOST PORT USER PASSWORD.
[, $kind, $host, $port, $user, $password] = $argv;
function show($name, $case) {
    try { $wrong = $case(); } catch (Throwable $error) { $wrong = get_class($error) . " " . $error->getMessage(); }
    echo "$name: " . ($wrong === null ? "ok" : substr(str_replace("\n", " ", $wrong), 0, 120)) . "\n";
}
function want($found, $wanted) { return $found == $wanted ? null : json_encode($found) . " in place of " . json_encode($wanted); }
if ($kind == "mysqli") {
    mysqli_report(MYSQLI_REPORT_ERROR | MYSQLI_REPORT_STRICT);
    $link = new mysqli($host, $user, $password, "", (int)$port);
    $link->set_charset("utf8mb4");
    $rows = function ($text) use ($link) { $found = $link->query($text); return $found === true ? [] : $found->fetch_all(); };
    $begin = fn() => $link->begin_transaction(); $commit = fn() => $link->commit(); $rollback = fn() => $link->rollback();
    $prepared = function () use ($link) { $s = $link->prepare("SELECT ? + 1"); $a = 41; $s->bind_param("i", $a); $s->execute(); $found = $s->get_result()->fetch_all(); $s->close(); return $found; };
    $code = fn($error) => $error->getCode();
} else {
    $emulated = $kind == "pdo";
    $link = new PDO("mysql:host=$host;port=$port;charset=utf8mb4", $user, $password, [PDO::ATTR_ERRMODE => PDO::ERRMODE_EXCEPTION, PDO::ATTR_EMULATE_PREPARES => $emulated]);
    $rows = function ($text) use ($link) { $found = $link->query($text); return $found->columnCount() ? $found->fetchAll(PDO::FETCH_NUM) : []; };
    $begin = fn() => $link->beginTransaction(); $commit = fn() => $link->inTransaction() && $link->commit(); $rollback = fn() => $link->rollBack();
    $prepared = function () use ($link) { $s = $link->prepare("SELECT ? + 1"); $s->execute([41]); return $s->fetchAll(PDO::FETCH_NUM); };
    $code = fn($error) => $error->errorInfo[1];
}
show("select", fn() => want((int)$rows("SELECT 41 + 1")[0][0], 42));
show("write", function () use ($rows, $commit) {
    $rows("DROP TABLE IF EXISTS d.stacks");
    $rows("CREATE TABLE d.stacks (id INT PRIMARY KEY AUTO_INCREMENT, v VARCHAR(40)) ENGINE=InnoDB CHARACTER SET utf8mb4");
    $rows("INSERT INTO d.stacks (v) VALUES ('a'), ('b')");
    $commit();
    return want((int)$rows("SELECT COUNT(*) FROM d.stacks")[0][0], 2);
});
show("rollback", function () use ($rows, $begin, $rollback) {
    $begin(); $rows("INSERT INTO d.stacks (v) VALUES ('c')"); $rollback();
    return want((int)$rows("SELECT COUNT(*) FROM d.stacks")[0][0], 2);
});
show("error", function () use ($rows, $code) {
    try { $rows("SELEC 1"); } catch (Throwable $error) { return want($code($error), 1064); }
    return "no error";
});
show("text", fn() => want($rows("SELECT 'grüße'")[0][0], "grüße"));
$rows("SET SESSION max_recursive_iterations = 30000");
show("rows", fn() => want(count($rows("WITH RECURSIVE n(i) AS (SELECT 1 UNION ALL SELECT i + 1 FROM n WHERE i < 20000) SELECT i FROM n")), 20000));
show("prepared", fn() => want((int)$prepared()[0][0], 42));
