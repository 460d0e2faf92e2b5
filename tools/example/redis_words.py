"""A few words of the protocol of Redis, for redis_bench and redis_judge."""
import socket

APPEND = b"""
-- Puts the lines N, N+1, .. of a stream behind those that it has. A line that it has already has to be the same one; one whose
-- predecessor is missing is refused. The answer is how many lines the stream has.
local had = redis.call('XREVRANGE', KEYS[1], '+', '-', 'COUNT', 1)
local last = had[1] and tonumber(string.match(had[1][1], '^%d+')) or 0
for i = 2, #ARGV do
    local number = tonumber(ARGV[1]) + i - 2
    local id = string.format('%.0f-0', number)
    if number == last + 1 then
        redis.call('XADD', KEYS[1], id, 'l', ARGV[i])
        last = number
    elseif number > last then
        return redis.error_reply('MISSING line ' .. string.format('%.0f', last + 1))
    else
        local before = redis.call('XRANGE', KEYS[1], id, id)
        if before[1] and before[1][2][2] ~= ARGV[i] then
            return redis.error_reply('OTHER line ' .. string.format('%.0f', number) .. ' was stored')
        end
    end
end
return last
"""


class Refused(Exception):
    """What the server answers instead of a value."""


class Redis:
    """One connection. What was asked when it fails with OSError may or may not have been done."""

    def __init__(self, host):
        name, _, port = host.rpartition(":")
        self.connection = socket.create_connection((name, int(port)), timeout=60)
        self.answers = self.connection.makefile("rb", buffering=1 << 18)

    def close(self):
        self.answers.close()
        self.connection.close()

    def ask(self, *words):
        """One command and its answer."""
        answer = self.ask_all([words])[0]
        if isinstance(answer, Refused):
            raise answer
        return answer

    def ask_all(self, commands):
        """Many commands in one piece, and their answers in turn, refusals among them."""
        self.connection.sendall(b"".join(map(command, commands)))
        return [self.answer() for _ in commands]

    def answer(self):
        """One answer; a refusal is given and not raised, so that those behind it can be read."""
        line = self.answers.readline()
        if not line.endswith(b"\r\n"):
            raise ConnectionResetError("the server closed the connection")
        kind, text = line[:1], line[1:-2]
        if kind == b"$":
            return self.text(int(text))
        if kind == b"*":
            return None if text == b"-1" else [self.answer() for _ in range(int(text))]
        if kind == b":":
            return int(text)
        return Refused(text.decode(errors="replace")) if kind == b"-" else text

    def text(self, length):
        if length < 0:
            return None
        whole = self.answers.read(length + 2)
        if len(whole) < length + 2:
            raise ConnectionResetError("the server closed the connection")
        return whole[:-2]


def command(words):
    """The bytes of one command."""
    parts = [word if isinstance(word, bytes) else str(word).encode() for word in words]
    return b"*%d\r\n" % len(parts) + b"".join([b"$%d\r\n%s\r\n" % (len(part), part) for part in parts])


def append(stream, number, lines):
    """The command that puts these lines, of which the first is line `number`, behind those of a stream."""
    return ["EVAL", APPEND, 1, stream, number, *lines]
