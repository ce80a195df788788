<?php // Prepared statements of mysqli and PDO: php prepared.php mysqli|pdo HOST PORT USER PASSWORD.
[, $kind, $host, $port, $user, $password] = $argv;
function show($name, $case) {
    try { $wrong = $case(); } catch (Throwable $error) { $wrong = get_class($error) . " " . $error->getMessage(); }
    echo "$name: " . ($wrong === null ? "ok" : substr(str_replace("\n", " ", $wrong), 0, 120)) . "\n";
}
function want($found, $wanted) { return $found === $wanted ? null : substr(json_encode($found), 0, 60) . " in place of " . substr(json_encode($wanted), 0, 60); }
if ($kind == "mysqli") {
    mysqli_report(MYSQLI_REPORT_ERROR | MYSQLI_REPORT_STRICT);
    $link = new mysqli($host, $user, $password, "", (int)$port);
    $link->set_charset("utf8mb4");
    $plain = fn($text) => $link->query($text);
    $prepare = fn($text) => $link->prepare($text);
    $run = function ($s, ...$values) { $s->execute($values); $found = $s->get_result(); return $found ? $found->fetch_all() : []; };
    $rollback = fn() => $link->rollback();
    $blob = function () use ($link) {
        $s = $link->prepare("INSERT INTO d.p (i, b) VALUES (7, ?)");
        $null = null; $s->bind_param("b", $null);
        for ($k = 0; $k < 20; $k++) $s->send_long_data(0, str_repeat(chr(97 + $k), 1 << 20));
        $s->execute();
    };
} else {
    $link = new PDO("mysql:host=$host;port=$port;charset=utf8mb4", $user, $password, [PDO::ATTR_ERRMODE => PDO::ERRMODE_EXCEPTION, PDO::ATTR_EMULATE_PREPARES => false]);
    $plain = fn($text) => $link->exec($text);
    $prepare = fn($text) => $link->prepare($text);
    $run = function ($s, ...$values) { $s->execute($values); return $s->columnCount() ? $s->fetchAll(PDO::FETCH_NUM) : []; };
    $rollback = fn() => $link->exec("ROLLBACK");
    $blob = function () use ($link) {
        $s = $link->prepare("INSERT INTO d.p (i, b) VALUES (7, ?)");
        $whole = ""; for ($k = 0; $k < 20; $k++) $whole .= str_repeat(chr(97 + $k), 1 << 20);
        $s->bindParam(1, $whole, PDO::PARAM_LOB); $s->execute();
    };
}
$plain("DROP TABLE IF EXISTS d.p");
$plain("CREATE TABLE d.p (i BIGINT, u BIGINT UNSIGNED, f DOUBLE, c DECIMAL(20,4), t VARCHAR(60), w DATETIME(6), n INT, b LONGBLOB) CHARACTER SET utf8mb4");
show("types", function () use ($prepare, $run) {
    $s = $prepare("INSERT INTO d.p (i, u, f, c, t, w, n) VALUES (?, ?, ?, ?, ?, ?, ?)");
    foreach ([-5, 6] as $i) $run($s, $i, "18446744073709551615", 1.5, "12345678901234.5678", "grüße", "2024-02-29 12:34:56.250000", null);
    $s = $prepare("SELECT i, u, f, c, t, w, n FROM d.p WHERE i = ?");
    foreach ([-5, 6] as $i) {
        $wrong = want(array_map("strval", $run($s, $i)[0]), [strval($i), "18446744073709551615", "1.5", "12345678901234.5678", "grüße", "2024-02-29 12:34:56.250000", ""]);
        if ($wrong) return $wrong;
    }
    return null;
});
show("blob", function () use ($blob, $prepare, $run) {
    $blob();
    $found = $run($prepare("SELECT b FROM d.p WHERE i = ?"), 7)[0][0];
    return want([strlen($found), $found[5 << 20], $found[(20 << 20) - 1]], [20 << 20, "f", "t"]);
});
show("hundred", function () use ($prepare, $run) {
    $all = [];
    for ($k = 0; $k < 100; $k++) $all[] = $prepare("SELECT ? + $k");
    for ($round = 0; $round < 3; $round++)
        foreach ($all as $k => $s) { $wrong = want((int)$run($s, 1000 * $round)[0][0], 1000 * $round + $k); if ($wrong) return $wrong; }
    return null;
});
show("undone", function () use ($plain, $prepare, $run, $rollback) {
    $plain("BEGIN"); $run($prepare("INSERT INTO d.p (i) VALUES (?)"), 99); $rollback();
    return want((int)$run($prepare("SELECT COUNT(*) FROM d.p WHERE i = ?"), 99)[0][0], 0);
});
