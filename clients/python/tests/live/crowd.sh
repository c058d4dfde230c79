# shellcheck shell=bash
# 200 threads that each have a client, 200 that share a pool, and 200 tasks of asyncio, while servers die by turns.
client_program call # (what it needs of the environment)
. "$here/servers.sh"
for way in clients pool tasks; do
    crowd "200 by $way" 2000 "$python" -B "$own/crowd.py" "$way" 200 5 $((20 * slack))
done
