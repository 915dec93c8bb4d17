"""Braking distances and planned speeds, straight from their rules (docs/card.md, "Braking distance" and "Planning")."""


def braking_distances(top, deceleration):
    """Those of all speeds from 0 to top, each from the one it brakes to. A deceleration of 0 is read as 1."""
    distances = [0]
    for speed in range(1, top + 1):
        distances.append(speed + distances[max(speed - max(deceleration, 1), 0)])
    return distances


def braking_distance(speed, deceleration):
    return braking_distances(speed, deceleration)[speed]


def planned_speed(speed, feedrate, acceleration, deceleration, room):
    """Every speed up to the cap is tried; the greatest that can brake within the room is planned."""
    cap = max(min(speed + acceleration, feedrate), speed - deceleration, 0)
    return max(w for w, distance in enumerate(braking_distances(cap, deceleration)) if distance <= room)
