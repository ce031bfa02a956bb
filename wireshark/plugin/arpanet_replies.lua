-- SPDX-License-Identifier: MIT
-- arpanet_replies.lua: pending replies in the order of what they answer, found by their content; connections by age; and
-- queues. Nothing here iterates over all entries: each is put in once and taken out once.

local replies = {}

-- ---------------------------------------------------------------- pending replies

-- A reply has `keys`, each for one content that it may have, and is `sure` if it is mandatory. `first` is the index of the
-- oldest, `sure` the index before which none is mandatory. Each key has the indexes of its replies, in order.
function replies.new() return { first = 1, next = 1, sure = 1, count = 0, all = {}, by = {} } end

function replies.push(list, reply)
  local place = list.next
  list.next, list.count, list.all[place] = place + 1, list.count + 1, reply
  for _, key in ipairs(reply.keys) do
    local same = list.by[key]
    if not same then
      same = { first = 1, last = 0, unsure = 0 }
      list.by[key] = same
    end
    same.last = same.last + 1
    same[same.last] = place
  end
end

-- The index of the first reply that may have this content, or nil.
local function place_of(list, key)
  local same = list.by[key]
  return same and same[same.first]
end

function replies.find(list, key)
  local place = place_of(list, key)
  return place and list.all[place]
end

-- Whether the reply at this index is mandatory. It is not if a message may have been meant for a later one.
local function is_sure(list, place)
  local reply = list.all[place]
  if not reply or not reply.sure then return false end
  for _, key in ipairs(reply.keys) do
    if place <= list.by[key].unsure then return false end
  end
  return true
end

-- The index of the first mandatory reply. One that is not mandatory never becomes so.
local function sure_place(list)
  list.sure = math.max(list.sure, list.first)
  while list.sure < list.next and not is_sure(list, list.sure) do list.sure = list.sure + 1 end
  return list.sure
end

function replies.first_sure(list) return list.all[sure_place(list)] end

-- The first mandatory reply before the first that may have this content.
function replies.skipped(list, key)
  local place = sure_place(list)
  return place < place_of(list, key) and list.all[place] or nil
end

-- Removes the reply at an index, which is the first by each of its keys.
local function take_out(list, place)
  local reply = list.all[place]
  if not reply then return end
  list.all[place], list.count = nil, list.count - 1
  for _, key in ipairs(reply.keys) do
    local same = list.by[key]
    same[same.first], same.first = nil, same.first + 1
    if same.first > same.last then list.by[key] = nil end
  end
end

-- A reply was sent: removes the first that may have this content, and all before it. If that one is not mandatory, none
-- that may have this content is.
function replies.strike(list, key)
  local place = place_of(list, key)
  if not is_sure(list, place) then list.by[key].unsure = list.next - 1 end
  for at = list.first, place do take_out(list, at) end
  list.first = place + 1
end

-- Removes all that may have this content, which have no other key.
function replies.drop(list, key)
  while list.by[key] do take_out(list, place_of(list, key)) end
end

-- ---------------------------------------------------------------- connections by age

-- A heap: no connection is older than the one at half its index. Each stores its index.

local function put(heap, place, life)
  heap[place] = life
  if life then life.place = place end
end

local function rise(heap, place)
  local life = heap[place]
  while place > 1 do
    local parent = math.floor(place / 2)
    if heap[parent].age < life.age then break end
    put(heap, place, heap[parent])
    place = parent
  end
  put(heap, place, life)
end

local function sink(heap, place)
  local life = heap[place]
  while heap[2 * place] do
    local child = 2 * place
    if heap[child + 1] and heap[child + 1].age < heap[child].age then child = child + 1 end
    if life.age < heap[child].age then break end
    put(heap, place, heap[child])
    place = child
  end
  put(heap, place, life)
end

function replies.add_life(heap, life)
  put(heap, #heap + 1, life)
  rise(heap, #heap)
end

-- Removes a connection, if present.
function replies.remove_life(heap, life)
  local place, last = life.place, #heap
  if not place then return end
  local moved = heap[last]
  heap[last], life.place = nil, nil
  if moved == life then return end
  put(heap, place, moved)
  rise(heap, place)
  sink(heap, moved.place)
end

-- ---------------------------------------------------------------- queues

function replies.queue() return { first = 1, last = 0 } end

function replies.append(queue, one)
  queue.last = queue.last + 1
  queue[queue.last] = one
end

function replies.oldest(queue) return queue[queue.first] end

function replies.newest(queue) return queue[queue.last] end

function replies.take_oldest(queue)
  local one = queue[queue.first]
  if one then queue[queue.first], queue.first = nil, queue.first + 1 end
  return one
end

function replies.take_newest(queue)
  local one = queue[queue.last]
  if queue.first <= queue.last then queue[queue.last], queue.last = nil, queue.last - 1 end
  return one
end

return replies
