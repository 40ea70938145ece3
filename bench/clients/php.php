<?php
// PHP's pgsql, as bench/clients/cases.py asks it.
error_reporting(0);
[, $port, $database] = $argv;
$connections = [];
while (($line = fgets(STDIN)) !== false) {
    [$word, $number, $rest] = explode(' ', rtrim($line, "\n"), 3) + [2 => ''];
    $error = null;
    if ($word == 'open') {
        $connections[$number] = pg_connect("host=127.0.0.1 port=$port user=me dbname=$database", PGSQL_CONNECT_FORCE_NEW);
        if (!$connections[$number]) $error = 'no connection';
    } elseif ($word == 'run') {
        if (!pg_query($connections[$number], $rest)) $error = pg_last_error($connections[$number]);
    } elseif ($word == 'own') {
        $texts = ['BEGIN', "NOTIFY c, 'never'", 'ROLLBACK', 'BEGIN', "NOTIFY c, 'kept'", 'COMMIT', "NOTIFY c, 'behind'"];
        if (!pg_ping($connections[$number]) || pg_set_client_encoding($connections[$number], 'UTF8')) $error = 'no answer';
        foreach ($texts as $text) if (!pg_query($connections[$number], $text)) $error = pg_last_error($connections[$number]);
    } elseif ($word == 'get') {
        [$count, $ms] = explode(' ', $rest);
        $until = microtime(true) + $ms / 1000;
        do {
            while ($count > 0 && ($note = pg_get_notify($connections[$number], PGSQL_ASSOC))) {
                echo "{$note['pid']} {$note['message']} {$note['payload']}\n";
                $count--;
            }
            $left = $until - microtime(true);
            $read = [pg_socket($connections[$number])];
            $none = null;
            if ($count > 0 && $left > 0) stream_select($read, $none, $none, 0, (int)min(900000, $left * 1000000));
        } while ($count > 0 && $left > 0);
    } elseif ($word == 'close') {
        pg_close($connections[$number]);
        unset($connections[$number]);
    }
    echo $error === null ? "ok\n" : 'error ' . preg_replace('/\s+/', ' ', $error) . "\n";
}
