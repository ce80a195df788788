// mysql: node node.js HOST PORT USER PASSWORD.
const mysql = require('mysql');
const [host, port, user, password] = process.argv.slice(2);
const link = mysql.createConnection({ host, port: Number(port), user, password, charset: 'utf8mb4' });
const rows = (text, values) => new Promise((done, failed) => link.query(text, values, (error, found) => error ? failed(error) : done(Array.isArray(found) ? found.map(Object.values) : [])));
const want = (found, wanted) => found == wanted ? null : `${found} in place of ${wanted}`;
async function show(name, test) {
  let wrong;
  try { wrong = await test(); } catch (error) { wrong = error.message; }
  console.log(`${name}: ${wrong == null ? 'ok' : String(wrong).slice(0, 120)}`);
}
async function main() {
  await show('select', async () => want((await rows('SELECT 41 + 1'))[0][0], 42));
  await show('write', async () => {
    await rows('DROP TABLE IF EXISTS d.stacks');
    await rows('CREATE TABLE d.stacks (id INT PRIMARY KEY AUTO_INCREMENT, v VARCHAR(40)) ENGINE=InnoDB CHARACTER SET utf8mb4');
    await rows("INSERT INTO d.stacks (v) VALUES ('a'), ('b')");
    return want((await rows('SELECT COUNT(*) FROM d.stacks'))[0][0], 2);
  });
  await show('rollback', async () => {
    await new Promise((done, failed) => link.beginTransaction(error => error ? failed(error) : done()));
    await rows("INSERT INTO d.stacks (v) VALUES ('c')");
    await new Promise((done, failed) => link.rollback(error => error ? failed(error) : done()));
    return want((await rows('SELECT COUNT(*) FROM d.stacks'))[0][0], 2);
  });
  await show('error', async () => { try { await rows('SELEC 1'); } catch (error) { return want(error.errno, 1064); } return 'no error'; });
  await show('text', async () => want((await rows("SELECT 'grüße'"))[0][0], 'grüße'));
  await rows('SET SESSION max_recursive_iterations = 30000');
  await show('rows', async () => want((await rows('WITH RECURSIVE n(i) AS (SELECT 1 UNION ALL SELECT i + 1 FROM n WHERE i < 20000) SELECT i FROM n')).length, 20000));
  await show('prepared', async () => want((await rows('SELECT ? + 1', [41]))[0][0], 42));
  await show('ping', () => new Promise(done => link.ping(error => done(error ? error.message : null))));
  link.end();
}
main().catch(error => { console.log(`login: ${error.message}`); process.exit(1); });
