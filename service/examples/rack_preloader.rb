#!/usr/bin/env ruby
# rack_preloader.rb CONFIG.RU [THREADS]
#
# A preloader in Ruby: prefork-serve --preload CONFIG -- ruby rack_preloader.rb config.ru. It loads a Rack application once,
# and forks workers that serve it with puma, each with this number of threads (4). See docs/workers/preloaders.md.
require "fcntl"
require "socket"
require "puma"
require "puma/server"
require "rack"

SETOWN, SETSIG, ASYNC, LONGEST, HANDED = 8, 10, 0o20000, 4096, 4
# How often a worker that has survived its master looks whether it is to finish, and after how long it does by itself.
LOOK, FINISH = 0.1, 30

# The name that `ps -o comm` shows.
def show_name(name)
  File.write("/proc/self/comm", name)
rescue SystemCallError
  nil
end

# The listening socket of an address, from the keeper.
def socket_of(keeper, address)
  keeper.send(address, 0)
  keeper.wait_readable(10) or abort("#{address}: the keeper does not answer")
  said, _, _, *more = keeper.recvmsg(200, scm_rights: true)
  abort "#{address}: #{said}" unless said == "ok"
  more[0].unix_rights[0].tap { |socket| socket.autoclose = false }
end

# An application whose answers end their connections once its worker leaves. Without that, as many busy kept connections
# as there are threads would keep puma from hearing that it is to stop.
class Leaving
  def initialize(app) = @app = app

  def leave = @leaves = true

  def call(env)
    status, headers, body = @app.call(env)
    [status, @leaves ? headers.merge("Connection" => "close") : headers, body]
  end
end

# Serves on after the death of the master, as long as the service wants it: while a file is there that it touches.
def outlive_master(name)
  path, clock = "#{FOLDER}/survivors/#{name}.#{$$}", -> { Process.clock_gettime(Process::CLOCK_MONOTONIC) }
  File.write(path, "")
  touched, seen = nil, clock.call
  while clock.call - seen <= FINISH
    now = File.mtime(path)
    touched, seen = now, clock.call if now != touched
    sleep LOOK
  end
  File.unlink(path)
rescue SystemCallError
  nil
end

# A worker: obeys the master's lines, to their end.
def work(app, input, output, name, place, threads)
  output.sync, start, addresses, serves, app = true, nil, [], false, Leaving.new(app)
  server = Puma::Server.new(app, Puma::Events.strings, {min_threads: 1, max_threads: threads})
  keeper = Socket.new(:UNIX, :SEQPACKET)
  keeper.connect(Addrinfo.unix(place))
  while (word, first, _, number = input.gets&.split)
    case word
    when "worker" then start = number
    when "listener"
      socket, (host, _, port) = socket_of(keeper, first), first.rpartition(":")
      server.binder.inherit_tcp_listener(host, port.to_i, TCPServer.for_fd(socket.fileno))
      addresses << first
    when "go" then serves = server.run(true) && (output.puts("ready") || true)
    when "ping" then output.puts("pong")
    when "tick" then output.puts("beat #{first} #{start}")
    when "close" then keeper.send("-#{first}", 0) if addresses.delete(first)
    when "usr1" then nil
    when "quit"
      app.leave
      server.stop(true)
      output.puts("gone")
      return
    else abort "a line that no master says: #{word}"
    end
  end
  outlive_master(name) if serves
  app.leave
  server.stop(true)
end

# Ties this process to its shim: the system kills it when the other end of the lifeline is closed.
def tie(connection, lifeline)
  lifeline.fcntl(SETOWN, $$)
  lifeline.fcntl(SETSIG, Signal.list["KILL"])
  lifeline.fcntl(Fcntl::F_SETFL, lifeline.fcntl(Fcntl::F_GETFL) | ASYNC)
  exit!(1) if lifeline.wait_readable(0)
  connection.send("pid #{$$}", 0)
end

# The process of a worker, with what its shim has handed over.
def become(connection, text, given, app, threads)
  input, output, errors, lifeline = given
  STDERR.reopen(errors)
  _, name, keeper = text.split(" ", 3)
  show_name("worker #{name}")
  tie(connection, lifeline)
  work(app, input, output, name, keeper, threads)
  connection.send("ended 0", 0)
end

# What a shim that has connected asks for, and its descriptors; none if it has ended meanwhile.
def asked(connection)
  connection.send("give", 0)
  text, _, _, *more = connection.recvmsg(LONGEST, scm_rights: true)
  [text, more.empty? ? [] : more[0].unix_rights]
rescue SystemCallError
  ["", []]
end

# The workers that have ended.
def ended
  found = []
  while (number = Process.wait(-1, Process::WNOHANG))
    found << number
  end
  found
rescue SystemCallError
  found
end

life, said, fork_socket = STDIN.dup, STDOUT.dup, Socket.for_fd(Integer(ENV.delete("PREFORK_FORK_SOCKET")))
FOLDER = ENV["PREFORK_FOLDER"]
ENV.delete_if { |name, _| name.start_with?("PREFORK_") }
STDIN.reopen("/dev/null") && STDOUT.reopen(STDERR)
show_name("prefork-preload")
begin
  app, = Rack::Builder.parse_file(ARGV[0])
rescue ScriptError, StandardError => fault
  warn fault.full_message
  said.syswrite("failed #{ARGV[0]}: #{fault.class}: #{fault.message.lines.first&.chomp}\n")
  exit!(1)
end
GC.compact
said.syswrite("loaded\n")
workers = []
# Its input ends with its generation. It waits for its workers, then, too.
loop do
  ready, = IO.select([fork_socket, life], nil, nil, 1)
  workers -= ended
  break if ready&.include?(life)
  next unless ready
  connection, = fork_socket.accept
  text, given = asked(connection)
  if given.size == HANDED
    workers << fork do
      [fork_socket, life, said].each(&:close)
      become(connection, text, given, app, (ARGV[1] || 4).to_i)
      exit!(0)
    end
    # (prefork-serve may have ended)
    said.syswrite("forked\n") rescue nil
  end
  [connection, *given].each(&:close)
end
fork_socket.close
workers -= [Process.wait] until workers.empty?
