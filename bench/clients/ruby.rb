# Ruby's pg, as bench/clients/cases.py asks it.
require 'pg'

STDIN.set_encoding('UTF-8')
port, database = ARGV
connections = {}
while (line = STDIN.gets)
  word, number, rest = line.chomp.split(' ', 3)
  begin
    case word
    when 'open' then connections[number] = PG.connect(host: '127.0.0.1', port: port, user: 'me', dbname: database)
    when 'run' then connections[number].exec(rest)
    when 'own'
      connection = connections[number]
      begin
        connection.transaction { connection.exec("NOTIFY c, 'never'"); raise IOError }
      rescue IOError
        connection.set_client_encoding('UTF8')
      end
      connection.transaction { connection.exec("NOTIFY c, 'kept'") }
      connection.exec("NOTIFY c, 'behind'")
    when 'close' then connections.delete(number).close
    when 'get'
      count, ms = rest.split.map(&:to_i)
      till = Process.clock_gettime(Process::CLOCK_MONOTONIC) + ms / 1000.0
      while count > 0
        left = till - Process.clock_gettime(Process::CLOCK_MONOTONIC)
        come = connections[number].wait_for_notify([left, 0.001].max) { |channel, pid, payload| puts "#{pid} #{channel} #{payload}" }
        come ? count -= 1 : (break if left <= 0)
      end
    end
    puts 'ok'
  rescue PG::Error => error
    puts "error #{error.message.split.join(' ')}"
  end
  STDOUT.flush
end
