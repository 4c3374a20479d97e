"""Whether the system's clock may be told to the record. A tick cannot be taken back, so one that goes far ahead has to be confirmed."""
import os
import time

import service
from stops import Pace


class Clock:
    def __init__(self, folder, log, hours):
        self.confirmed, self.log, self.most = folder.at("clock-is-right"), log, hours * 3600
        # where the record's clock stands, as far as that is known; one that was never told stands at 0
        self.reached, self.asks, self.pace = 0, False, Pace(600)

    def is_right(self):
        far = time.time() - self.reached
        if not self.reached or not self.most or far <= self.most:
            if self.asks:
                self.log.warn("the clock is no more so far ahead; the time is told again")
            self.asks = False
        elif not self.asks:
            service.remove(self.confirmed)  # one of before confirms nothing
            self.asks, self.pace = True, Pace(600)
        elif os.path.lexists(self.confirmed) and service.remove(self.confirmed):
            self.log.warn(f"the clock is confirmed by {self.confirmed}; the time is told again")
            self.asks = False
        if self.asks and self.pace.is_due():
            self.log.warn(
                f"the system's clock is {far / 3600:.0f} hours ahead of the record's, {service.stamp(self.reached)}; a tick cannot be taken back, so the "
                f"time is not told: set the clock right, or, if it is right, touch {self.confirmed}")
        return not self.asks
