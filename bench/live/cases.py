"""What is measured, and the names under which results are recorded."""
ROUND_TRIPS = [0, 20, 50, 100, 200]  # milliseconds
CLIENTS = [1, 8, 32]
HZ = 30  # steps a second of a client that drags
WINDOWS = [16, 64, 1024]  # edits under way of one client
ALONE_ROUND_TRIPS = [0, 20, 50, 100]
CROWD = 64  # clients
CROWD_WINDOWS = [1, 16, 64]
IDLE = 50  # clients
IDLE_SHARE = 15 / 8  # of the seconds of another case
HOSTILE_CLIENTS = 8  # clients that drag beside the hostile one
HOSTILE = ["nothing", "edits", "garbage", "frames", "strangers"]
MANY = [(30, 969), (200, 0)]  # clients that drag, and others that receive, besides the one that is watched
MANY_IDLE = 5000  # clients


def drag(kind, round_trip, clients):
    return f"live drag of {kind} at {round_trip} ms by {clients}"


def alone(kind, round_trip, window):
    return f"live edits of {kind} at {round_trip} ms with {window}"


def crowd(kind, window):
    return f"live crowd of {kind} with {window}"


def idle(kind):
    return f"live idle of {kind}"


def many(clients, listeners):
    return f"live drag by {clients} among {clients + listeners + 1}"


def many_idle():
    return f"live idle of {MANY_IDLE}"


def beside(hostile):
    return f"live beside {hostile}"


RUN = "live run"
