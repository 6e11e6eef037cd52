"""Policies of a batch scheduler: which jobs of the queue start now.

A policy is given the queue, in the order in which jobs came, the number of free nodes, the jobs that run, and the date. It
returns the jobs that start. A job has `nodes`, `asked` (for how many seconds at most, as its user says) and `started`.
"""


def fcfs(queue, free, running, now):
    """First come, first served: a job that doesn't fit blocks all later ones."""
    starts = []
    for job in queue:
        if job.nodes > free:
            break
        free -= job.nodes
        starts.append(job)
    return starts


def easy(queue, free, running, now):
    """EASY backfilling: a job may overtake if that doesn't delay the first waiting job."""
    starts = fcfs(queue, free, running, now)
    free -= sum(job.nodes for job in starts)
    waiting = queue[len(starts):]
    if not waiting:
        return starts
    ends = [(now + job.asked, job.nodes) for job in starts] + [(job.started + job.asked, job.nodes) for job in running]
    promised, spare = reservation(waiting[0], free, sorted(ends))
    for job in waiting[1:]:
        in_time = now + job.asked <= promised
        if job.nodes <= free and (in_time or job.nodes <= spare):
            free -= job.nodes
            spare -= 0 if in_time else job.nodes
            starts.append(job)
    return starts


def reservation(job, free, ends):
    """When a job can start at the latest, and how many nodes are free besides it then."""
    for date, nodes in ends:
        free += nodes
        if free >= job.nodes:
            return date, free - job.nodes
    raise ValueError(f"job {job.number} needs {job.nodes} nodes, and the machine has {free}")
