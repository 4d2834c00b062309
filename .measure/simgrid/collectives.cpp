// collectives PATTERN RANKS: a collective of `goal gen`, with 8 bytes per message, as SimGrid actors.
//
// PATTERN is bcast, barrier, allgather, alltoall or hang (two ranks that each receive first). There
// is one actor per rank. A message takes 2542 ns on the way (L + 6 * 7, the model "Constant"), and o =
// 1500 ns of the sender and of the receiver. Each pair of ranks has a mailbox of its own. Sends are
// detached, and a mailbox has a permanent receiver, so that a message is on its way before its receive.
// It prints the finish in nanoseconds.
#include <cmath>
#include <cstdio>
#include <cstdlib>
#include <simgrid/s4u.hpp>
#include <string>
#include <unistd.h>
#include <vector>

namespace sg = simgrid::s4u;

static const double OVERHEAD = 1500e-9;
static const double BYTES = 8;
static unsigned long ranks;
static char content;

static sg::Mailbox* mailbox(unsigned long from, unsigned long to)
{
  return sg::Mailbox::by_name(std::to_string(to) + "." + std::to_string(from));
}

static void send(unsigned long from, unsigned long to)
{
  sg::this_actor::sleep_for(OVERHEAD);
  mailbox(from, to)->put_init(&content, BYTES)->detach();
}

static void receive(unsigned long from, unsigned long to)
{
  mailbox(from, to)->get<char>();
  sg::this_actor::sleep_for(OVERHEAD);
}

// The round in which a rank above 0 receives in a broadcast: that of its highest binary digit.
static unsigned long round_of(unsigned long rank)
{
  unsigned long round = 0;
  while (rank >> (round + 1) != 0)
    round++;
  return round;
}

static void bcast(unsigned long rank)
{
  unsigned long round = 0;
  if (rank != 0) {
    round = round_of(rank);
    receive(rank - (1UL << round), rank);
    round++;
  }
  for (; 1UL << round < ranks; round++)
    if (rank + (1UL << round) < ranks)
      send(rank, rank + (1UL << round));
}

static void barrier(unsigned long rank)
{
  for (unsigned long ahead = 1; ahead < ranks; ahead *= 2) {
    send(rank, (rank + ahead) % ranks);
    receive((rank + ranks - ahead) % ranks, rank);
  }
}

static void allgather(unsigned long rank)
{
  for (unsigned long step = 1; step < ranks; step++) {
    send(rank, (rank + 1) % ranks);
    receive((rank + ranks - 1) % ranks, rank);
  }
}

static void alltoall(unsigned long rank)
{
  for (unsigned long step = 1; step < ranks; step++)
    send(rank, (rank + step) % ranks);
  for (unsigned long step = 1; step < ranks; step++)
    receive((rank + ranks - step) % ranks, rank);
}

static void hang(unsigned long rank)
{
  receive((rank + 1) % ranks, rank);
  send(rank, (rank + 1) % ranks);
}

// The ranks from which a rank receives.
static std::vector<unsigned long> sources(const std::string& pattern, unsigned long rank)
{
  std::vector<unsigned long> from;
  if (pattern == "bcast") {
    if (rank != 0)
      from.push_back(rank - (1UL << round_of(rank)));
  } else if (pattern == "barrier") {
    for (unsigned long ahead = 1; ahead < ranks; ahead *= 2)
      from.push_back((rank + ranks - ahead) % ranks);
  } else if (pattern == "alltoall") {
    for (unsigned long step = 1; step < ranks; step++)
      from.push_back((rank + ranks - step) % ranks);
  } else {
    from.push_back((rank + ranks - 1) % ranks);
  }
  return from;
}

int main(int count, char** words)
{
  if (count != 3)
    return 2;
  const std::string pattern = words[1];
  ranks = std::strtoul(words[2], nullptr, 10);
  void (*body)(unsigned long) = pattern == "bcast"       ? bcast
                                : pattern == "barrier"   ? barrier
                                : pattern == "allgather" ? allgather
                                : pattern == "alltoall"  ? alltoall
                                                         : hang;
  std::vector<std::string> options = {words[0],
                                      "--cfg=contexts/factory:raw",
                                      "--cfg=contexts/stack-size:16",
                                      "--cfg=contexts/guard-size:0",
                                      "--cfg=network/model:Constant",
                                      "--cfg=network/latency-factor:2.542e-6",
                                      "--cfg=surf/precision:1e-10",
                                      "--cfg=host/model:compound",
                                      "--cfg=debug/verbose-exit:0"};
  if (pattern != "hang")
    options.push_back("--log=root.thres:warning");
  std::vector<char*> given;
  for (auto& option : options)
    given.push_back(option.data());
  int options_count = static_cast<int>(given.size());
  given.push_back(nullptr);
  sg::Engine engine(&options_count, given.data());

  sg::NetZone* zone = sg::create_empty_zone("zone");
  std::vector<sg::Host*> hosts;
  for (unsigned long rank = 0; rank < ranks; rank++) {
    hosts.push_back(zone->create_host("host" + std::to_string(rank), 1e9));
    hosts.back()->seal();
  }
  zone->seal();
  for (unsigned long rank = 0; rank < ranks; rank++) {
    auto actor = sg::Actor::create("rank" + std::to_string(rank), hosts[rank], [body, rank] { body(rank); });
    for (unsigned long from : sources(pattern, rank))
      mailbox(from, rank)->set_receiver(actor);
  }
  engine.run();
  std::printf("%.0f\n", std::round(sg::Engine::get_clock() * 1e9));
  std::fflush(stdout);
  if (pattern == "hang")
    return 0;
  _exit(0); // without the time that taking down the platform takes
}
