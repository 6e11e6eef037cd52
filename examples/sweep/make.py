"""Makes the inputs of one point: a ring of hosts over one backbone.

A problem of 16e9 flops a step is cut into as many parts as there are hosts. In each of ten steps every actor computes
its part, sends its border of 10 MB to the next one, and receives that of the one before. All messages share the
backbone, of which `backbone` is the bandwidth, as `400MBps`.
"""

FLOPS, BYTES, STEPS = 16_000_000_000, 10_000_000, 10


def make(folder, backbone, hosts):
    platform = ['[[zone]]\nid = "cluster"\nrouting = "Star"\n']
    platform.append(f'\n[[link]]\nid = "backbone"\nbandwidth = "{backbone}"\nlatency = "100us"\n')
    deployment, script = [], []
    for number in range(1, hosts + 1):
        platform.append(f'\n[[host]]\nid = "h{number}"\nzone = "cluster"\nspeed = "1Gf"\n')
        platform.append(f'\n[[link]]\nid = "l{number}"\nbandwidth = "125MBps"\nlatency = "50us"\n')
        platform.append('sharing_policy = "SPLITDUPLEX"\n')
        platform.append(f'\n[[spoke]]\nzone = "cluster"\nchild = "h{number}"\nup = ["l{number}_UP", "backbone"]\n')
        deployment.append(f'[[actor]]\nname = "a{number}"\nhost = "h{number}"\nfunction = "replay"\n\n')
        script += STEPS * [f"a{number} compute {FLOPS // hosts}\n"] if hosts == 1 else STEPS * [
            f"a{number} compute {FLOPS // hosts}\n",
            f"a{number} isend a{number % hosts + 1} {BYTES}\n",
            f"a{number} recv a{(number - 2) % hosts + 1}\n",
            f"a{number} wait\n",
        ]

    for name, lines in (("platform.toml", platform), ("deployment.toml", deployment), ("script.txt", script)):
        (folder / name).write_text("".join(lines))
