-- The grid: where each task instance stands, by how its last try since its last clearing ended, and how many tries that were.
SELECT i.dag_id, date(i.logical, 'unixepoch') AS day, i.task_id,
    coalesce(
        (SELECT CASE a.outcome WHEN 0 THEN 'success' WHEN 1 THEN 'failed' WHEN 2 THEN 'skipped' WHEN 3 THEN 'lost' ELSE 'in flight' END
            FROM attempt a
            WHERE a.dag_id = i.dag_id AND a.logical = i.logical AND a.task_id = i.task_id AND a.try_number > i.since
            ORDER BY a.serial DESC LIMIT 1),
        CASE i.verdict WHEN 2 THEN 'skipped' WHEN 3 THEN 'upstream_failed' ELSE 'not tried' END) AS stands,
    (SELECT count(*) FROM attempt a
        WHERE a.dag_id = i.dag_id AND a.logical = i.logical AND a.task_id = i.task_id AND a.try_number > i.since) AS tries
    FROM instance i ORDER BY i.dag_id, i.logical, i.task_id;

-- Durations: how many tries of each task ended, and how many seconds they took, in the mean and at most.
SELECT dag_id, task_id, count(*) AS tries, round(avg(ended - started), 1) AS mean, max(ended - started) AS longest
    FROM attempt WHERE started IS NOT NULL AND ended IS NOT NULL GROUP BY dag_id, task_id ORDER BY dag_id, task_id;

-- The failures of the last week, by the record's clock.
SELECT serial, dag_id, date(logical, 'unixepoch') AS day, task_id, try_number, iif(outcome = 3, 'lost', 'failed') AS ended_so
    FROM attempt, meta WHERE outcome IN (1, 3) AND ended >= now - 7 * 86400 ORDER BY serial;

-- Slots over time: how many slots running tries took, from each moment on.
SELECT datetime(at, 'unixepoch') AS moment, sum(sum(change)) OVER (ORDER BY at) AS slots
    FROM (SELECT started AS at, slots AS change FROM attempt WHERE started IS NOT NULL
        UNION ALL SELECT ended, -slots FROM attempt WHERE started IS NOT NULL AND ended IS NOT NULL)
    GROUP BY at ORDER BY at;

-- How full each graph is: how many of its tries are in flight, and how many may be (max_active_tasks). A record of version 1 has no such table.
SELECT l.dag_id, (SELECT count(*) FROM attempt a WHERE a.dag_id = l.dag_id AND a.ended IS NULL) AS in_flight, l.max_active_tasks
    FROM dag_limit l ORDER BY l.dag_id;
