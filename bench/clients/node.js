// node-postgres, as bench/clients/cases.py asks it.
const { Client, Pool } = require('pg');
const readline = require('readline');

const [port, database] = process.argv.slice(2);
const clients = {};

class One {
  async open() {
    this.got = [];
    this.look = () => {};
    this.client = new Client({ host: '127.0.0.1', port: +port, user: 'me', database, ssl: false });
    this.client.on('notification', (note) => { this.got.push(`${note.processId} ${note.channel} ${note.payload}`); this.look(); });
    this.client.on('error', () => {});
    await this.client.connect();
  }

  async get(count, ms) {
    if (this.got.length < count) {
      await new Promise((resolve) => {
        const timer = setTimeout(resolve, ms);
        this.look = () => { if (this.got.length >= count) { clearTimeout(timer); resolve(); } };
      });
      this.look = () => {};
    }
    return this.got.splice(0, Math.max(count, 1));
  }
}

// By the library's pool.
async function own() {
  const pool = new Pool({ host: '127.0.0.1', port: +port, user: 'me', database, ssl: false, max: 2 });
  for (const [text, end] of [["NOTIFY c, 'never'", 'ROLLBACK'], ["NOTIFY c, 'kept'", 'COMMIT']]) {
    const client = await pool.connect();
    try {
      await client.query('BEGIN');
      await client.query(text);
      await client.query(end);
    } finally {
      client.release();
    }
  }
  await pool.query("NOTIFY c, 'behind'");
  await pool.end();
}

async function act(word, number, rest) {
  if (word === 'open') { clients[number] = new One(); await clients[number].open(); }
  if (word === 'run') await clients[number].client.query(rest);
  if (word === 'own') await own();
  if (word === 'get') return clients[number].get(...rest.split(' ').map(Number));
  if (word === 'close') { await clients[number].client.end(); delete clients[number]; }
  return [];
}

async function main() {
  for await (const line of readline.createInterface({ input: process.stdin })) {
    const [, word, number, rest] = line.match(/^(\S+) (\S+) ?(.*)$/);
    let answer;
    try {
      answer = [...await act(word, number, rest), 'ok'];
    } catch (error) {
      answer = [`error ${error.message}`];
    }
    process.stdout.write(answer.join('\n') + '\n');
  }
  process.exit(0);
}

main();
