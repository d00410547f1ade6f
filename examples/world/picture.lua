-- A Julia set. Each point gets the number of steps after which it has gone far away, and each number a colour.

function colour(step, all)
    local part = step / all
    return 255 * part ^ 0.9 // 1, 230 * part ^ 0.6 // 1, 60 + 120 * math.sin(3 * part) // 1
end

function point(x, y)
    local a, b = x / 98, y / 98
    for step = 1, 63 do
        if a * a + b * b > 16 then
            return step
        end
        a, b = a * a - b * b - 0.8, 2 * a * b + 0.156
    end
    return 0
end
