"""A train on its way, second by second."""

from .trains import sample


class Run:
    """Motion and pipe pressures follow from a driver who goes through phases.
    Whole hundredths and feet throughout."""

    def __init__(self, draw, train, head, speed, time):
        self.draw = draw
        self.set = train["set"]
        self.foot_part = 0                       # in 1,500ths of a foot
        self.head, self.speed, self.time = head, speed, time
        self.cruise = speed
        self.front = self.set
        self.rear = self.set - draw.pick((0, 0, 50, 150, 300))
        self.gap = self.set - self.rear
        self.phase, self.left, self.rate = "cruise", draw.between(2, 15), 0
        self.lost = 0
        self.always_lost = draw.chance(4)
        self.style = draw.below(3)
        self.slow_clock = draw.chance(30)

    def samples(self, count):
        """So many samples, and the seconds between them."""
        taken = []
        for _ in range(count):
            taken.append(self.sample())
            self.wait()
        return taken

    # --- the driver

    def next_phase(self):
        share = self.draw.below(100)
        self.rate = 0
        if self.phase == "cruise":
            self.leave_cruise(share)
        elif self.phase in ("service", "hold"):
            self.leave_service(share)
        elif self.phase == "emergency":
            self.phase, self.left = "stopped", self.draw.between(8, 40)
        elif self.phase == "stopped":
            self.phase, self.rate, self.left = "release", self.draw.between(90, 900), 80
        else:
            self.phase, self.left = "cruise", self.draw.between(5, 40)
            self.cruise = self.draw.between(500, 4500)

    def leave_cruise(self, share):
        draw = self.draw
        if share < 55:
            # A service application; sometimes so slow that only the depth tells.
            self.phase = "service"
            self.rate = -draw.between(20, 100) if draw.chance(15) else -draw.between(120, 700)
            depth = draw.between(500, 2800)
            self.left = max(1, depth // -self.rate)
        elif share < 68:
            self.start_emergency()
        else:
            self.phase, self.left = "cruise", draw.between(3, 20)
            self.cruise = max(0, min(6500, self.cruise + draw.between(-600, 600)))

    def leave_service(self, share):
        draw = self.draw
        if share < 35:
            self.phase, self.left = "hold", draw.between(5, 40)
        elif share < 50:
            self.phase, self.left = "service", draw.between(1, 5)
            self.rate = -draw.between(80, 500)
        elif share < 56:
            self.start_emergency()
        else:
            self.phase, self.rate, self.left = "release", draw.between(110, 900), 60

    def start_emergency(self):
        self.phase, self.rate, self.left = "emergency", -self.draw.between(1500, 5000), 8

    # --- the train

    def second(self):
        """One second passes."""
        if self.left <= 0:
            self.next_phase()
        self.left -= 1
        self.move_pipe()
        self.move_train()
        self.time += 1

    def move_pipe(self):
        self.front += self.rate
        if self.front <= 0:
            self.front = 0
            if self.phase == "emergency":
                self.left = 0
        if self.phase == "release" and self.front >= self.set:
            self.front, self.left = self.set, 0
        self.rear += (self.front - self.gap - self.rear) // 3
        self.rear = max(0, self.rear)

    def move_train(self):
        depth = self.set - self.front
        if self.phase in ("service", "hold", "emergency", "stopped"):
            self.speed -= min(depth, 3500) // 50
        elif self.phase == "release":
            self.speed -= 10
        else:
            pull = self.cruise - self.speed
            self.speed += max(-60, min(40, pull))
        self.speed = max(0, self.speed)
        # 1 mph is 22 ft in 15 s.
        self.foot_part += 22 * self.speed
        self.head += self.foot_part // 1500
        self.foot_part %= 1500

    def wait(self):
        """One to five seconds pass."""
        seconds = self.draw.between(1, 5) if self.slow_clock or self.draw.chance(8) else 1
        for _ in range(seconds):
            self.second()

    def sample(self):
        draw = self.draw
        if self.lost > 0:
            self.lost -= 1
        elif draw.chance(3):
            self.lost = draw.between(1, 12)
        noise = draw.between(-15, 15) if draw.chance(20) else 0
        lost = self.always_lost or self.lost > 0
        return sample(draw, self.time, self.head, self.speed, max(0, self.front + noise),
                      None if lost else self.rear, self.style)
