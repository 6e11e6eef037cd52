"""A batch scheduler: runs the jobs of a file on the nodes of a machine, by a policy.

    python3 -m simgrid_replay.s4u scheduler.py cluster.xml jobs.swf fcfs|easy [CHART.svg]

Runs on SimGrid too: python3 scheduler.py ..
"""
import sys

import policies
from chart import chart
from simgrid import Actor, Engine, Host, Mailbox, this_actor


class Job:
    """A line of a file in the Standard Workload Format."""

    def __init__(self, line):
        words = line.split()
        self.number, self.submitted, self.seconds = int(words[0]), float(words[1]), float(words[3])
        self.nodes, self.asked = int(words[7]), float(words[8])
        self.hosts, self.started, self.ended = [], 0.0, 0.0


def submitter(jobs):
    """The users: they send each job at its date."""
    box = Mailbox.by_name("scheduler")
    for job in jobs:
        this_actor.sleep_until(job.submitted)
        box.put(("submitted", job), 1000)


def part(job):
    """A job on one of its nodes: it computes for so many seconds."""
    this_actor.execute(job.seconds * this_actor.get_host().speed)


def runner(job):
    """A job: a part on each of its nodes, of which the first reports the end to the scheduler."""
    parts = [Actor.create(f"job{job.number}", host, part, job) for host in job.hosts[1:]]
    part(job)
    for other in parts:
        other.join()
    Mailbox.by_name("scheduler").put(("ended", job), 1000)


def scheduler(count, nodes, policy):
    """Receives the arrivals and ends of jobs, and after each asks the policy which jobs start."""
    box, free, queue, running = Mailbox.by_name("scheduler"), list(nodes), [], []
    while count:
        event, job = box.get()
        if event == "submitted":
            queue.append(job)
        else:
            job.ended = Engine.clock
            running.remove(job)
            free = sorted(free + job.hosts, key=nodes.index)
            count -= 1
        for job in policy(queue, len(free), running, Engine.clock):
            queue.remove(job)
            job.started, job.hosts, free = Engine.clock, free[:job.nodes], free[job.nodes:]
            running.append(job)
            Actor.create(f"job{job.number}", job.hosts[0], runner, job)


def table(jobs, nodes):
    """Prints when each job ran, and how the machine was used."""
    print(" job nodes submitted     started       ended      waited")
    for job in jobs:
        print(f"{job.number:4} {job.nodes:5} {job.submitted:9.0f} {job.started:11.3f} {job.ended:11.3f} {job.started - job.submitted:11.3f}")
    waits, makespan = [job.started - job.submitted for job in jobs], max(job.ended for job in jobs)
    used = sum(job.nodes * (job.ended - job.started) for job in jobs) / (nodes * makespan)
    print(f"makespan {makespan:.3f} s, waiting {sum(waits) / len(waits):.3f} s on average and {max(waits):.3f} s at most, "
          f"utilisation {100 * used:.1f} %")


def main():
    engine = Engine(sys.argv)
    platform, file, policy, *picture = sys.argv[1:]
    engine.load_platform(platform)
    with open(file, encoding="ascii") as lines:
        jobs = [Job(line) for line in lines if line.strip() and line[0] != ";"]
    nodes = sorted((host for host in engine.all_hosts if host.name.startswith("node")), key=lambda host: int(host.name[4:]))
    front = Host.by_name("front0")
    Actor.create("scheduler", front, scheduler, len(jobs), nodes, getattr(policies, policy))
    Actor.create("submitter", front, submitter, jobs)
    engine.run()
    table(jobs, len(nodes))
    if picture:
        with open(picture[0], "w", encoding="ascii") as out:
            out.write(chart(jobs, [host.name for host in nodes]))


if __name__ == "__main__":
    main()
