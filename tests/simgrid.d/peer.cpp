// What SimGrid itself says of a platform, for tests/simgrid.
//
//     peer routes PLATFORM MOST SEED    its hosts, and the routes of all ordered pairs of them, or of so many drawn ones
//     peer replay PLATFORM ACTORS SCRIPT    the end of each line of a script, by the actors of a file of `NAME<tab>HOST`
//
// Options of SimGrid, as --cfg=.., stand among the words. Each flow gets the weight 1: SimGrid weighs flows by latency, and
// does so here where the environment has STOCK.

#include <simgrid/kernel/resource/Model.hpp>
#include <simgrid/kernel/resource/NetworkModelIntf.hpp>
#include <simgrid/s4u.hpp>

#include <csetjmp>
#include <csignal>
#include <cstdio>
#include <cstdlib>
#include <deque>
#include <fstream>
#include <iterator>
#include <map>
#include <random>
#include <sstream>
#include <string>
#include <vector>

namespace sg4 = simgrid::s4u;

// Exported by libsimgrid, but its header isn't installed.
namespace simgrid::kernel::activity {
class CommImpl {
public:
  static xbt::signal<void(CommImpl const&)> on_start;
};
} // namespace simgrid::kernel::activity

// The layout of SimGrid 3.32's NetworkAction.
struct NetworkAction : simgrid::kernel::resource::Action {
  sg4::Host* src;
  sg4::Host* dst;
  double latency;
  double route_latency;
  double penalty;
};

static simgrid::kernel::resource::Model* network;

static void weigh_equally(simgrid::kernel::activity::CommImpl const&)
{
  auto* started = network->get_started_action_set();
  if (started->empty())
    return;
  auto* flow = reinterpret_cast<NetworkAction*>(&started->back());
  if (flow->penalty != flow->route_latency && flow->penalty != 1.0) {
    fprintf(stderr, "peer: this SimGrid has another layout of NetworkAction\n");
    exit(70);
  }
  if (flow->route_latency > 0)
    flow->penalty = 1.0;
}

// Where a zone has no route SimGrid may abort: the pair is then told as one without.
static sigjmp_buf missing;

static void aborted(int)
{
  siglongjmp(missing, 1);
}

static void route(const sg4::Host* from, const sg4::Host* to)
{
  signal(SIGABRT, aborted);
  if (sigsetjmp(missing, 1) != 0)
    return;
  std::vector<sg4::Link*> links;
  double latency = 0;
  try {
    from->route_to(to, links, &latency);
  } catch (std::exception const&) {
    return;
  }
  if (links.empty())
    return;
  printf("route\t%s\t%s\t%.12g", from->get_cname(), to->get_cname(), latency);
  for (auto const* link : links)
    printf("\t%s\t%.12g\t%d", link->get_cname(), link->get_bandwidth(),
           link->get_sharing_policy() == sg4::Link::SharingPolicy::FATPIPE ? 1 : 0);
  printf("\n");
}

static int routes(sg4::Engine& engine, size_t most, unsigned seed)
{
  auto hosts = engine.get_all_hosts();
  for (auto const* host : hosts)
    printf("host\t%s\t%.12g\t%d\n", host->get_cname(), host->get_speed(), host->get_core_count());
  if (hosts.size() * hosts.size() <= most) {
    for (auto const* from : hosts)
      for (auto const* to : hosts)
        route(from, to);
    return 0;
  }
  std::mt19937 random(seed);
  for (size_t i = 0; i < most; i++) {
    const auto* from = hosts[random() % hosts.size()];
    const auto* to = hosts[random() % hosts.size()];
    printf("drawn\t%s\t%s\n", from->get_cname(), to->get_cname());
    route(from, to);
  }
  return 0;
}

using Words = std::vector<std::string>;

static sg4::Mailbox* box(std::string const& from, std::string const& to)
{
  return sg4::Mailbox::by_name(from + ">" + to);
}

static void* sink;

static void play(std::string const& me, std::vector<Words> const& lines)
{
  static int payload;
  std::deque<sg4::CommPtr> requests;
  for (auto const& words : lines) {
    const std::string& action = words[1];
    if (action == "compute")
      sg4::this_actor::execute(std::stod(words[2]));
    else if (action == "sleep")
      sg4::this_actor::sleep_for(std::stod(words[2]));
    else if (action == "send")
      box(me, words[2])->put(&payload, static_cast<uint64_t>(std::stod(words[3])));
    else if (action == "recv")
      box(words[2], me)->get<int>();
    else if (action == "isend")
      requests.push_back(box(me, words[2])->put_async(&payload, static_cast<uint64_t>(std::stod(words[3]))));
    else if (action == "irecv")
      requests.push_back(box(words[2], me)->get_async<void>(&sink));
    else if (action == "wait") {
      auto comm = requests.front();
      requests.pop_front();
      comm->wait();
    }
    printf("%s\t%s\t%.9f\n", me.c_str(), action.c_str(), sg4::Engine::get_clock());
  }
}

static int replay(sg4::Engine& engine, const char* actors, const char* script)
{
  std::map<std::string, std::vector<Words>> lines;
  std::ifstream read(script);
  for (std::string line; std::getline(read, line);) {
    std::istringstream words(line);
    Words all{std::istream_iterator<std::string>(words), std::istream_iterator<std::string>()};
    if (all.size() > 1 && all[0][0] != '#')
      lines[all[0]].push_back(all);
  }
  network = dynamic_cast<simgrid::kernel::resource::Model*>(engine.get_netzone_root()->get_network_model());
  if (getenv("STOCK") == nullptr)
    simgrid::kernel::activity::CommImpl::on_start.connect(weigh_equally);
  std::ifstream rows(actors);
  for (std::string line; std::getline(rows, line);) {
    const auto tab = line.find('\t');
    const auto name = line.substr(0, tab);
    sg4::Actor::create(name, engine.host_by_name(line.substr(tab + 1)), [name, &lines] { play(name, lines[name]); });
  }
  engine.run();
  return 0;
}

int main(int argc, char** argv)
{
  sg4::Engine engine(&argc, argv);
  const std::string mode = argc > 4 ? argv[1] : "";
  if (mode != "routes" && mode != "replay")
    return 2;
  engine.load_platform(argv[2]);
  engine.seal_platform();
  return mode == "routes" ? routes(engine, std::stoul(argv[3]), std::stoul(argv[4])) : replay(engine, argv[3], argv[4]);
}
