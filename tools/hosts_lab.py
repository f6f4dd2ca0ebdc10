"""A lab of the scripts in examples/three_hosts: a folder for each party, and networks of their own for the hosts where these can be made."""
import contextlib
import functools
import os
import shutil
import subprocess

from bounded_calls import listening, wait_for

TOP = os.path.dirname(os.path.dirname(os.path.abspath(__file__)))
HOSTS = ("h1", "h2", "h3")
PARTIES = ("owner", *HOSTS, "analyst")


class NoTunnel(OSError):
    """What stands for a host's server of ssh doesn't come up."""


def run_quietly(*words):
    return subprocess.run(words, capture_output=True, text=True, check=False).returncode == 0


@contextlib.contextmanager
def networks(names):
    """Three networks of this machine, joined by a bridge; nothing where they can't be made. Each has its address, 10.73.10.1 to .3."""
    tag = f"rr{os.getpid() % 100000}"
    bridge, spaces = f"{tag}b", {name: f"{tag}{name}" for name in names}
    made = False
    try:
        if names and shutil.which("ip") and run_quietly("ip", "link", "add", bridge, "type", "bridge") and run_quietly("ip", "link", "set", bridge, "up"):
            made = all(one_network(space, bridge, place) for place, space in enumerate(spaces.values(), 1))
        yield spaces if made else None
    finally:
        for space in spaces.values():
            run_quietly("ip", "netns", "del", space)
        run_quietly("ip", "link", "del", bridge)


def one_network(space, bridge, place):
    """A network with a loopback of its own and an end of a cable to the bridge."""
    here = ["ip", "netns", "exec", space, "ip"]
    steps = [
        ["ip", "netns", "add", space], ["ip", "link", "add", f"{space}v", "type", "veth", "peer", "name", "eth0", "netns", space],
        ["ip", "link", "set", f"{space}v", "master", bridge], ["ip", "link", "set", f"{space}v", "up"], [*here, "link", "set", "lo", "up"],
        [*here, "addr", "add", f"10.73.10.{place}/24", "dev", "eth0"], [*here, "link", "set", "eth0", "up"],
    ]
    return all(run_quietly(*step) for step in steps)


class Lab:
    """The folders of the five parties, the tunnels' other ends, and the settings by which the scripts reach one another.

    `bench` has the port, the environment of the tools and the patience of a call; each party gets the program, and the owner the inputs, too.
    """

    def __init__(self, bench, folder, spaces, source, inputs):
        self.bench, self.folder, self.spaces = bench, folder, spaces
        self.settings = f"{folder}/settings.sh"
        for party in PARTIES:
            os.mkdir(f"{folder}/{party}")
        for party in ("owner", *HOSTS):
            shutil.copy(source, f"{folder}/{party}")
        shutil.copy(inputs, f"{folder}/owner")
        with open(self.settings, "w", encoding="utf-8") as file:
            file.write(self.settings_text())

    def inside(self, host):
        return ["ip", "netns", "exec", self.spaces[host]] if self.spaces else []

    def settings_text(self):
        """In the place of ssh stands what leads into the other networks; on one network no tunnel is wanted."""
        lines = [f"{name}={value}" for name, value in (
            ("host1", "h1"), ("host2", "h2"), ("host3", "h3"), ("analyst", "analyst"), ("port", self.bench.port), ("budget", 1_000_000),
            ("secrec", f"{TOP}/user/secrec"), ("random_tape", f"{TOP}/user/random_tape"),
            ("random_input", f"{TOP}/user/random_input"), ("secrec_sum", f"{TOP}/user/secrec-sum"), ("patience", int(self.bench.patience)))]
        lines.append(f'send() {{ cp -- "${{@:2}}" "{self.folder}/$1/"; }}')
        if self.spaces:
            tag = self.spaces["h1"][:-2]
            lines.append(f'on() {{ ip netns exec "{tag}$1" "${{@:2}}"; }}')
        else:
            lines.append('on() { "${@:2}"; }')
        return "".join(line + "\n" for line in lines) + self.tunnel_line()

    def tunnel_line(self, *more):
        """What opens a tunnel; further words are for what stands for ssh."""
        if not self.spaces:
            return "tunnel() { exec sleep 1000; }\n"
        return f'tunnel() {{ exec "{TOP}/tools/forward" 127.0.0.2 "$2" "10.73.10.${{1#h}}" "$2" {" ".join(more)}; }}\n'

    def script(self, start, name, party, *words):
        inside = self.inside(party) if party in HOSTS else []
        environment = {**self.bench.tool_environment, "SETTINGS": self.settings}
        return start([*inside, f"{TOP}/examples/three_hosts/{name}.sh", *words], f"{self.folder}/{party}", env=environment)

    def other_ends(self, start):
        """What stands for the hosts' servers of ssh: streams from the cable to the port of the host's own 127.0.0.2."""
        if self.spaces:
            for host, ports in (("h1", (0, 1)), ("h2", (2,))):
                for port in (self.bench.port + one for one in ports):
                    start([*self.inside(host), f"{TOP}/tools/forward", f"10.73.10.{host[1]}", str(port), "127.0.0.2", str(port)], self.folder)
                    if not wait_for(functools.partial(listening, [port], self.inside(host)), 20):
                        raise NoTunnel(f"no tunnel at {port} of {host}")
