# Connects with the Ruby driver, sends a ping and disconnects. Words: HOST PORT MECHANISM, or --version.
require 'mongo'

if ARGV == ['--version']
  puts Mongo::VERSION
  exit 0
end
host, port, mechanism = ARGV
Mongo::Logger.logger.level = Logger::FATAL
exit 4 unless mechanism == 'SCRAM-SHA-1'
begin
  client = Mongo::Client.new(["#{host}:#{port}"], user: ENV['INTEROP_USER'], password: ENV['INTEROP_PASSWORD'], auth_mech: :scram,
                             auth_source: 'admin', database: 'admin', connect: :direct, server_selection_timeout: 10)
  client.database.command(ping: 1)
  client.close
rescue Mongo::Auth::Unauthorized => refused
  puts refused.message
  exit 1
rescue StandardError => fault
  puts "#{fault.class}: #{fault.message}"
  exit 2
end
