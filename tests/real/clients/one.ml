(* OCaml: one HOST PORT USER PASSWORD. *)
let link =
  try Mysql.connect { Mysql.dbhost = Some Sys.argv.(1); dbname = None; dbport = Some (int_of_string Sys.argv.(2)); dbuser = Some Sys.argv.(3); dbpwd = Some Sys.argv.(4); dbsocket = None }
  with Mysql.Error wrong -> Printf.printf "login: %s\n" wrong; exit 1
let one text =
  let found = Mysql.exec link text in
  match Mysql.errmsg link with
  | Some wrong -> failwith wrong
  | None -> (match Mysql.fetch found with Some row -> (match row.(0) with Some value -> value | None -> "NULL") | None -> "")
let run text =
  ignore (Mysql.exec link text);
  match Mysql.errmsg link with Some wrong -> failwith wrong | None -> ()
let show name test wanted =
  let found = try test () with Failure wrong | Mysql.Error wrong -> if wanted = "1064" then "1064" else wrong in
  Printf.printf "%s: %s\n%!" name (if found = wanted then "ok" else found ^ " in place of " ^ wanted)
let () =
  show "select" (fun () -> one "SELECT 41 + 1") "42";
  show "write" (fun () ->
    List.iter run ["DROP TABLE IF EXISTS d.stacks"; "CREATE TABLE d.stacks (id INT PRIMARY KEY AUTO_INCREMENT, v VARCHAR(40)) ENGINE=InnoDB CHARACTER SET utf8mb4"; "INSERT INTO d.stacks (v) VALUES ('a'), ('b')"];
    one "SELECT COUNT(*) FROM d.stacks") "2";
  show "rollback" (fun () -> List.iter run ["BEGIN"; "INSERT INTO d.stacks (v) VALUES ('c')"; "ROLLBACK"]; one "SELECT COUNT(*) FROM d.stacks") "2";
  show "error" (fun () -> one "SELEC 1") "1064";
  run "SET NAMES utf8mb4";
  show "text" (fun () -> one "SELECT 'gr\xc3\xbc\xc3\x9fe'") "gr\xc3\xbc\xc3\x9fe";
  show "rows" (fun () -> run "SET SESSION max_recursive_iterations = 30000"; Int64.to_string (Mysql.size (Mysql.exec link "WITH RECURSIVE n(i) AS (SELECT 1 UNION ALL SELECT i + 1 FROM n WHERE i < 20000) SELECT i FROM n"))) "20000";
  show "prepared" (fun () -> let s = Mysql.Prepared.create link "SELECT CONCAT(?, '2')" in let found = Mysql.Prepared.execute s [| "4" |] in
    let value = (match Mysql.Prepared.fetch found with Some row -> (match row.(0) with Some value -> value | None -> "NULL") | None -> "no row") in Mysql.Prepared.close s; value) "42";
  show "after" (fun () -> one "SELECT 43") "43";
  Mysql.disconnect link
